//! The command `lists`.
use std::io::Write;
use std::path::PathBuf;
use std::process::{Output, Stdio};
use std::{env, fs, process};

fn lists(words: &[&str], input: &[u8]) -> Output {
    let mut command = emulated::command(env!("CARGO_BIN_EXE_lists"));
    command.args(words).stdin(Stdio::piped()).stdout(Stdio::piped()).stderr(Stdio::piped());
    let mut child = command.spawn().expect("the command starts");
    // A command that reads nothing may be gone already.
    let _ = child.stdin.take().expect("its input").write_all(input);
    child.wait_with_output().expect("the command ends")
}

fn out(words: &[&str], input: &[u8]) -> Vec<u8> {
    let output = lists(words, input);
    assert!(output.status.success(), "{words:?}: {}", String::from_utf8_lossy(&output.stderr));
    output.stdout
}

fn message(words: &[&str], input: &[u8]) -> String {
    let output = lists(words, input);
    assert_eq!(output.status.code(), Some(2), "{words:?}");
    String::from_utf8(output.stderr).expect("plain words")
}

/// A file of this test alone, removed at the end.
struct Scratch(PathBuf);

impl Scratch {
    fn new(name: &str, bytes: &[u8]) -> Scratch {
        let path = env::temp_dir().join(format!("lists-{}-{name}", process::id()));
        fs::write(&path, bytes).expect("a file can be written");
        Scratch(path)
    }

    fn path(&self) -> &str {
        self.0.to_str().expect("a path in letters")
    }
}

impl Drop for Scratch {
    fn drop(&mut self) {
        let _ = fs::remove_file(&self.0);
    }
}

#[test]
fn cases_are_made_answered_and_compared() {
    let cases = out(&["make", "--class", "mutated", "--seed", "3", "--count", "40"], b"");
    let answers = out(&["answer"], &cases);
    let mut other = answers.clone();
    other[8] ^= 1;
    let files = [
        Scratch::new("cases", &cases),
        Scratch::new("answers", &answers),
        Scratch::new("other", &other),
    ];
    let [cases, same, other] = &files;
    let equal = out(&["diff", same.path(), same.path(), cases.path()], b"");
    assert_eq!(String::from_utf8_lossy(&equal), "40 answers compared, 0 differ\n");
    let differ = lists(&["diff", same.path(), other.path(), cases.path()], b"");
    assert_eq!(differ.status.code(), Some(1));
    let words = String::from_utf8_lossy(&differ.stdout).into_owned();
    assert!(words.contains("case 0: number") && words.ends_with("40 answers compared, 1 differ\n"));
    assert!(message(&["diff", cases.path(), same.path(), cases.path()], b"").contains("frame 1"));
    let empty = Scratch::new("empty", b"");
    let words = message(&["diff", same.path(), empty.path(), cases.path()], b"");
    assert!(words.contains("no answer to this case"), "{words}");
    let words = message(&["diff", same.path(), same.path(), empty.path()], b"");
    assert!(words.contains("more answers than cases"), "{words}");
}

#[test]
fn cases_and_answers_are_shown() {
    let cases = out(&["make", "--class", "named", "--count", "5"], b"");
    let shown = String::from_utf8(out(&["show"], &cases)).expect("plain words");
    assert!(shown.contains("token 3: Scalar 1-2 a 1..2 \"a\"\n"), "{shown}");
    let answers =
        String::from_utf8(out(&["show"], &out(&["answer"], &cases))).expect("plain words");
    assert!(answers.contains("answer: 0, count 10, place 0, flags 143\n"), "{answers}");
    assert!(answers.contains("event 6: MappingEnd 5-5\n"), "{answers}");
}

#[test]
fn nothing_in_is_nothing_out() {
    assert!(out(&["answer"], b"").is_empty());
    assert_eq!(out(&["show"], b""), b"nothing: the input is empty\n");
}

#[test]
fn mistakes_are_said() {
    for (words, part) in [
        (&[][..], "no command"),
        (&["mkae"], "not understood: mkae"),
        (&["make"], "--class"),
        (&["make", "--class", "nothing"], "no class nothing"),
        (&["make", "--class"], "not understood: --class"),
        (&["make", "--class", "named", "--seed", "x"], "not a number: x"),
        (&["texts", "--count"], "not understood: --count"),
        (&["texts", "--count", "x"], "not a number: x"),
        (&["diff", "a", "b"], "not understood"),
        (&["diff", "no-such-file", "b", "c"], "no-such-file"),
    ] {
        let said = message(words, b"");
        assert!(said.starts_with("lists: ") && said.contains(part), "{words:?}: {said}");
    }
    assert!(message(&["answer"], b"CAS").contains("frame 1: CASE or ANSW expected"));
    assert!(message(&["answer"], b"CASE1234").contains("40 bytes expected, 4 found"));
    let help = String::from_utf8(out(&["--help"], b"")).expect("plain words");
    assert!(lists::CLASSES.iter().all(|class| help.contains(class.name)), "{help}");
}
