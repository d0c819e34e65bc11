//! The words of the command.

const HELP: &str = "\
The proved run beside the Rust: every field of every event, number, count, place, the returned
number, what must stay as it was and what must be zero.

  beside run [--count N] [--seed S] [--class CLASS]
        N lists of each class (default: 250000, seed 0, all classes); ends with 1 if any differ
  beside rooms [--tokens N]
        every list of up to N tokens (default: 6) that the Rust's run goes on with, in every mixture of
        rooms at the need and one place under it; ends with 1 at the first call answered otherwise
  beside walk [--count N] [--seed S]
        N event lists of each kind (default: 50000, seed 0) through the proved walk of load and one written
        by hand; ends with 1 if any differ
  beside --help

A listed class (named, crossed, short, long, real) has an order of its own and may end before N;
there the seed is the number of the page of N lists. Classes:
";

/// What is asked for.
#[derive(Debug, PartialEq, Eq)]
pub enum Asked {
    Help,
    Run(Options),
    /// Lists of up to this many tokens in every mixture of rooms.
    Rooms(usize),
    Walk(Options),
}

/// Which lists are run.
#[derive(Debug, PartialEq, Eq)]
pub struct Options {
    pub count: usize,
    pub seed: u64,
    /// None: all.
    pub class: Option<&'static str>,
}

impl Options {
    const DEFAULT: Options = Options { count: 250_000, seed: 0, class: None };
    const WALK: Options = Options { count: 50_000, ..Options::DEFAULT };

    pub fn classes(&self) -> impl Iterator<Item = &'static str> + '_ {
        let asked = |name: &&'static str| self.class.is_none_or(|class| class == *name);
        lists::CLASSES.iter().map(|class| class.name).filter(asked)
    }
}

pub fn help() -> String {
    let rows = lists::CLASSES.iter().map(|class| format!("  {:8} {}\n", class.name, class.about));
    rows.fold(HELP.to_owned(), |help, row| help + &row)
}

pub fn parse(words: &[&str]) -> Result<Asked, String> {
    match words {
        ["--help" | "-h" | "help"] => Ok(Asked::Help),
        ["run", options @ ..] => read(Options::DEFAULT, options).map(Asked::Run),
        ["walk", options @ ..] => walk(options).map(Asked::Walk),
        ["rooms"] => Ok(Asked::Rooms(6)),
        ["rooms", "--tokens", value] => number(value).map(Asked::Rooms),
        [] => Err("no command given".to_owned()),
        _ => Err(format!("not understood: {}", words.join(" "))),
    }
}

/// The walk has no classes of token lists.
fn walk(words: &[&str]) -> Result<Options, String> {
    match read(Options::WALK, words)? {
        options @ Options { class: None, .. } => Ok(options),
        _ => Err("not understood: --class".to_owned()),
    }
}

fn read(mut options: Options, words: &[&str]) -> Result<Options, String> {
    for option in words.chunks(2) {
        match *option {
            ["--count", value] => options.count = number(value)?,
            ["--seed", value] => options.seed = number(value)?,
            ["--class", value] => options.class = Some(class(value)?),
            _ => return Err(format!("not understood: {}", option.join(" "))),
        }
    }
    Ok(options)
}

fn number<T: std::str::FromStr>(word: &str) -> Result<T, String> {
    word.parse().map_err(|_| format!("not a number: {word}"))
}

fn class(word: &str) -> Result<&'static str, String> {
    let found = lists::CLASSES.iter().find(|class| class.name == word);
    found.map(|class| class.name).ok_or_else(|| format!("there is no class {word}"))
}
