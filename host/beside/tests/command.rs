//! The command `beside`.
use emulated::command;
use std::process::Output;

fn beside(words: &[&str]) -> Output {
    command(env!("CARGO_BIN_EXE_beside")).args(words).output().expect("the command runs")
}

fn message(words: &[&str]) -> String {
    let output = beside(words);
    assert_eq!(output.status.code(), Some(2), "{words:?}");
    String::from_utf8(output.stderr).expect("plain words")
}

#[test]
fn a_run_prints_its_table() {
    let words = ["run", "--count", "12", "--seed", "1", "--class", "grammar"];
    if !beside::LINKED {
        return assert!(message(&words).contains("tools/library.sh"));
    }
    let output = beside(&words);
    let shown = String::from_utf8(output.stdout).expect("plain words");
    assert_eq!(output.status.code(), Some(0), "{shown}");
    assert!(shown.contains("\nall              12        0\n"), "{shown}");
}

/// No token, each of 26 letters, and each of them behind StreamStart, with four settings.
#[test]
fn a_sweep_of_rooms_prints_its_lists() {
    let words = ["rooms", "--tokens", "2"];
    if !beside::LINKED {
        return assert!(message(&words).contains("tools/library.sh"));
    }
    let output = beside(&words);
    let shown = String::from_utf8(output.stdout).expect("plain words");
    assert_eq!(output.status.code(), Some(0), "{shown}");
    assert!(shown.contains("\n   all        212\n"), "{shown}");
}

#[test]
fn a_page_past_the_end_is_no_success() {
    let words = ["run", "--count", "1000", "--seed", "9", "--class", "named"];
    let part = if beside::LINKED { "no list was compared" } else { "tools/library.sh" };
    assert!(message(&words).contains(part));
}

#[test]
fn mistakes_are_said() {
    for (words, part) in [
        (&[][..], "no command"),
        (&["rnu"], "not understood: rnu"),
        (&["run", "--class"], "not understood: --class"),
        (&["run", "--class", "nothing"], "no class nothing"),
        (&["run", "--count", "x"], "not a number: x"),
        (&["run", "--seed", "-1"], "not a number: -1"),
        (&["rooms", "--tokens", "x"], "not a number: x"),
        (&["rooms", "--token", "3"], "not understood: rooms --token 3"),
    ] {
        let said = message(words);
        assert!(said.starts_with("beside: ") && said.contains(part), "{words:?}: {said}");
    }
    let help = String::from_utf8(beside(&["--help"]).stdout).expect("plain words");
    assert!(lists::CLASSES.iter().all(|class| help.contains(class.name)), "{help}");
}
