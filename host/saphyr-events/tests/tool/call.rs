//! The command, called as a person calls it: in the top folder.
use std::io::Write;
use std::path::{Path, PathBuf};
use std::process::{Command, Stdio};

/// What a call gave: exit code, standard output, standard error.
#[derive(Debug, PartialEq, Eq)]
pub struct Given {
    pub code: i32,
    pub out: String,
    pub err: String,
}

impl Given {
    pub fn new(code: i32, out: &str, err: &str) -> Given {
        Given { code, out: out.to_owned(), err: err.to_owned() }
    }
}

pub fn top() -> PathBuf {
    Path::new(env!("CARGO_MANIFEST_DIR")).join("../..")
}

pub fn command(words: &[&str]) -> Command {
    let mut command = emulated::command(env!("CARGO_BIN_EXE_saphyr-events"));
    command.args(words).current_dir(top());
    command
}

/// With `input` as standard input.
pub fn tool_fed(words: &[&str], input: &[u8]) -> Given {
    let pipes = || Stdio::piped();
    let started = command(words).stdin(pipes()).stdout(pipes()).stderr(pipes()).spawn();
    let mut child = started.expect("the command starts");
    let mut stdin = child.stdin.take().expect("a pipe");
    let input = input.to_owned();
    // A tool that stops at its limit does not read to the end; that is no failure of the test.
    let feeder = std::thread::spawn(move || stdin.write_all(&input).is_ok());
    let output = child.wait_with_output().expect("the command ends");
    feeder.join().expect("the feeder ends");
    let text = |bytes| String::from_utf8(bytes).expect("UTF-8");
    let code = output.status.code().expect("no signal");
    Given { code, out: text(output.stdout), err: text(output.stderr) }
}

pub fn tool(words: &[&str]) -> Given {
    tool_fed(words, b"")
}
