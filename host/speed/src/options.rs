//! The words of the command.
use speed::{Shape, Side, SHAPES};

const HELP: &str = "\
The proved run against parser.rs behind a feeder, in one run on the same lists: instructions a token and ratios of
time, printed as the tables of docs/SPEED.md.

  speed [--shape NAME] [--quick]
        all shapes and sizes, or one shape; --quick: the small sizes only
  speed list NAME SIZE
        the list of a shape and a size, framed as tests/README.md says
  speed one SIDE TIMES
        so many runs of one side over the list on the standard input: what is counted, and what a profiler may be given
  speed --help

Instructions are counted by perf where it can, else by valgrind; under an emulator, which SAPHYR_EMULATOR names, by a
plugin of it. Sides:
";

/// The sizes of a shape that `--quick` takes.
const QUICK: usize = 2;

/// What is asked for.
#[derive(Debug)]
pub enum Asked {
    Help,
    Measure(Options),
    List(Shape, usize),
    /// The program that is counted: one side, so often, over the list on the standard input.
    One(Side, usize),
}

/// Which lists are measured.
#[derive(Debug, Default)]
pub struct Options {
    /// None: all.
    shape: Option<Shape>,
    quick: bool,
}

impl Options {
    pub fn shapes(&self) -> Vec<Shape> {
        self.shape.map_or(SHAPES.to_vec(), |shape| vec![shape])
    }

    pub fn sizes(&self, shape: &Shape) -> &'static [usize] {
        match self.quick {
            true => &shape.sizes[..QUICK],
            false => shape.sizes,
        }
    }
}

pub fn help() -> String {
    let row = |name, about| format!("  {name:20} {about}\n");
    let sides: String = Side::ALL.iter().map(|side| row(side.name(), side.about())).collect();
    let shapes: String = SHAPES.iter().map(|shape| row(shape.name, shape.about)).collect();
    format!("{HELP}{sides}Shapes:\n{shapes}")
}

pub fn parse(words: &[&str]) -> Result<Asked, String> {
    match words {
        ["--help" | "-h" | "help"] => Ok(Asked::Help),
        ["list", name, size] => Ok(Asked::List(shape(name)?, number(size)?)),
        ["one", name, times] => Ok(Asked::One(side(name)?, number(times)?)),
        options => read(options).map(Asked::Measure),
    }
}

fn read(words: &[&str]) -> Result<Options, String> {
    let mut options = Options::default();
    let mut words = words.iter();
    while let Some(word) = words.next() {
        match *word {
            "--quick" => options.quick = true,
            "--shape" => options.shape = Some(shape(words.next().copied().unwrap_or_default())?),
            other => return Err(format!("not understood: {other}")),
        }
    }
    Ok(options)
}

fn shape(word: &str) -> Result<Shape, String> {
    let found = SHAPES.into_iter().find(|shape| shape.name == word);
    found.ok_or_else(|| format!("there is no shape \"{word}\""))
}

fn side(word: &str) -> Result<Side, String> {
    let found = Side::ALL.into_iter().find(|side| side.name() == word);
    found.ok_or_else(|| format!("there is no side \"{word}\""))
}

fn number(word: &str) -> Result<usize, String> {
    word.parse().map_err(|_| format!("not a number: {word}"))
}
