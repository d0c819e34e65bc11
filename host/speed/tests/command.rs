//! The command `speed`. Nothing is measured here.
use speed::{LINKED, SHAPES};
use std::io::Write;
use std::process::{Command, Output, Stdio};

fn speed(words: &[&str], input: &[u8]) -> Output {
    let mut command = emulated::command(env!("CARGO_BIN_EXE_speed"));
    command.args(words).stdin(Stdio::piped()).stdout(Stdio::piped()).stderr(Stdio::piped());
    let mut child = command.spawn().expect("the command runs");
    child.stdin.take().expect("a pipe").write_all(input).expect("all is read");
    child.wait_with_output().expect("the command ends")
}

fn message(words: &[&str], input: &[u8]) -> String {
    let output = speed(words, input);
    assert_eq!(output.status.code(), Some(2), "{words:?}");
    String::from_utf8(output.stderr).expect("plain words")
}

#[test]
fn a_list_is_run_by_each_side() {
    let list = speed(&["list", "config", "100"], &[]).stdout;
    for side in ["proved", "rust-owned", "rust-lean", "feeder-owned", "checks"] {
        match LINKED {
            true => assert_eq!(speed(&["one", side, "2"], &list).status.code(), Some(0), "{side}"),
            false => assert!(message(&["one", side, "2"], &[]).contains("tools/library.sh")),
        }
    }
}

#[test]
fn mistakes_are_said() {
    for (words, part) in [
        (&["--shpae"][..], "not understood: --shpae"),
        (&["--shape"], "no shape \"\""),
        (&["--shape", "nothing"], "no shape \"nothing\""),
        (&["list", "config", "x"], "not a number: x"),
        (&["one", "nothing", "1"], "no side \"nothing\""),
    ] {
        let said = message(words, &[]);
        assert!(said.starts_with("speed: ") && said.contains(part), "{words:?}: {said}");
    }
    let help = String::from_utf8(speed(&["--help"], &[]).stdout).expect("plain words");
    assert!(SHAPES.iter().all(|shape| help.contains(shape.name)), "{help}");
}

/// A counter that is missing is named, before anything is measured. An emulator is there, since it runs this.
#[test]
fn a_missing_counter_is_said() {
    if emulated::emulator().is_some() {
        return;
    }
    let mut command = Command::new(env!("CARGO_BIN_EXE_speed"));
    let output = command.env("PATH", "").output().expect("the command runs");
    let said = String::from_utf8(output.stderr).expect("plain words");
    assert_eq!(output.status.code(), Some(2), "{said}");
    assert!(said.contains(if LINKED { "valgrind" } else { "tools/library.sh" }), "{said}");
    assert!(output.stdout.is_empty());
}
