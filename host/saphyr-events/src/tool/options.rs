//! The words of the command.
use super::help;
use saphyr_events::Settings;
use std::ffi::{OsStr, OsString};
use std::path::PathBuf;

/// What is to be done.
#[derive(Debug, PartialEq, Eq)]
pub enum Asked {
    /// Help or version.
    Text(&'static str),
    Job(Job),
}

#[derive(Clone, Copy, Debug, PartialEq, Eq)]
pub enum Command {
    Events,
    Tokens,
    Rooms,
}

impl Command {
    fn of(word: &OsStr) -> Option<Command> {
        match word.to_str()? {
            "events" => Some(Command::Events),
            "tokens" => Some(Command::Tokens),
            "rooms" => Some(Command::Rooms),
            _ => None,
        }
    }

    fn name(self) -> &'static str {
        match self {
            Command::Events => "events",
            Command::Tokens => "tokens",
            Command::Rooms => "rooms",
        }
    }

    fn help(self) -> &'static str {
        match self {
            Command::Events => help::EVENTS,
            Command::Tokens => help::TOKENS,
            Command::Rooms => help::ROOMS,
        }
    }

    fn options(self) -> &'static [&'static str] {
        match self {
            Command::Events => &["--spans", "--json", "--keep-anchors", "--forget", "--keep-tags"],
            Command::Tokens => &["--spans"],
            Command::Rooms => &[],
        }
    }
}

#[derive(Clone, Debug, PartialEq, Eq)]
pub enum Input {
    Standard,
    File(PathBuf),
}

impl Input {
    /// What messages call it.
    pub fn name(&self) -> String {
        match self {
            Input::Standard => "standard input".to_owned(),
            Input::File(path) => path.display().to_string(),
        }
    }
}

#[derive(Debug, PartialEq, Eq)]
pub struct Job {
    pub command: Command,
    pub input: Input,
    pub settings: Settings,
    pub spans: bool,
    pub json: bool,
}

pub fn parse(words: &[OsString]) -> Result<Asked, String> {
    let Some((first, rest)) = words.split_first() else {
        return Err("no command given".to_owned());
    };
    match first.to_str() {
        Some("--help" | "-h" | "help") => return Ok(Asked::Text(help::ALL)),
        Some("--version" | "-V") => return Ok(Asked::Text(help::VERSION)),
        _ => {}
    }
    match Command::of(first) {
        Some(command) => job(command, rest),
        None => Err(format!("there is no command {}", first.to_string_lossy())),
    }
}

fn job(command: Command, words: &[OsString]) -> Result<Asked, String> {
    let (mut options, mut inputs) = (Vec::new(), Vec::new());
    let mut names_only = false;
    for word in words {
        match word.to_str() {
            // Behind `--` every word is a name.
            _ if names_only => inputs.push(Input::File(word.into())),
            Some("--") => names_only = true,
            Some("-") => inputs.push(Input::Standard),
            Some("--help" | "-h") => return Ok(Asked::Text(command.help())),
            Some(option) if option.starts_with('-') => options.push(option),
            _ => inputs.push(Input::File(word.into())),
        }
    }
    let unknown = options.iter().find(|option| !command.options().contains(*option));
    if let Some(option) = unknown {
        return Err(format!("{} has no option {option}", command.name()));
    }
    let has = |option| options.contains(&option);
    if has("--keep-anchors") && has("--forget") {
        return Err("--keep-anchors and --forget: one of the two".to_owned());
    }
    let settings =
        Settings { keep_tags: has("--keep-tags"), forget_anchors: !has("--keep-anchors") };
    let (spans, json) = (has("--spans"), has("--json"));
    Ok(Asked::Job(Job { command, input: only(inputs)?, settings, spans, json }))
}

fn only(mut inputs: Vec<Input>) -> Result<Input, String> {
    if let [first, second, ..] = &inputs[..] {
        return Err(format!("one file at a time, not {} and {}", first.name(), second.name()));
    }
    inputs.pop().ok_or_else(|| "no file given; - is standard input".to_owned())
}
