//! Each message of the command, by exact output.
use crate::call::{command, tool, tool_fed, Given};
use std::fs;
use std::io::Read;
use std::path::{Path, PathBuf};
use std::process::Stdio;

/// A text, the events before its refusal, and what is said of it.
struct Refused<'a>(&'a str, &'a [&'a str], &'a [&'a str]);

impl Refused<'_> {
    fn check(&self) {
        let Refused(yaml, out, err) = self;
        let lines =
            |lines: &[&str]| lines.iter().map(|line| format!("{line}\n")).collect::<String>();
        let given = tool_fed(&["events", "-"], yaml.as_bytes());
        assert_eq!(given, Given::new(1, &lines(out), &lines(err)), "{yaml:?}");
    }
}

/// The numbers that a text can be refused by. The scanner gives StreamStart first and StreamEnd last, so not 1 and 14.
const NUMBERS: [Refused; 12] = [
    Refused(
        "%YAML 1.2\nx\n",
        &["+STR"],
        &["standard input:2:1: refused by 2: a document start (---) is expected here", "    x", "    ^"],
    ),
    Refused(
        "%YAML 1.2\n%YAML 1.2\n---\n",
        &["+STR"],
        &["standard input:2:1: refused by 3: a second %YAML directive in one document", "    %YAML 1.2", "    ^"],
    ),
    Refused(
        "%TAG !e! a:\n%TAG !e! b:\n---\n",
        &["+STR"],
        &[
            "standard input:2:1: refused by 4: a second %TAG directive for the same handle in one document",
            "    %TAG !e! b:",
            "    ^",
        ],
    ),
    Refused(
        "a\n\u{feff}b\n",
        &["+STR", "+DOC", "=VAL :a"],
        &["standard input:2:1: refused by 5: a byte order mark inside a document", "    b", "    ^"],
    ),
    Refused(
        "[a]\n%TAG ! a:\n---\nb\n",
        &["+STR", "+DOC", "+SEQ", "=VAL :a", "-SEQ"],
        &[
            "standard input:2:1: refused by 6: a directive after a document without its end marker (...)",
            "    %TAG ! a:",
            "    ^",
        ],
    ),
    Refused(
        "- a\n- \t*b\n",
        &["+STR", "+DOC", "+SEQ", "=VAL :a"],
        &["standard input:2:4: refused by 7: an alias with no such anchor", "    - \t*b", "      \t^"],
    ),
    Refused(
        "[a, , b]\n",
        &["+STR", "+DOC", "+SEQ", "=VAL :a"],
        &["standard input:1:5: refused by 8: the content of a node is expected here", "    [a, , b]", "        ^"],
    ),
    // The scanner places the token of `-` at what follows it.
    Refused(
        "a: b\n- c\n",
        &["+STR", "+DOC", "+MAP", "=VAL :a", "=VAL :b"],
        &["standard input:2:3: refused by 9: a key of the block mapping is expected here", "    - c", "      ^"],
    ),
    Refused(
        "{a\n",
        &["+STR", "+DOC", "+MAP", "=VAL :a", "=VAL :"],
        &[
            "standard input:2:1: refused by 10: ',' or '}' of the flow mapping is expected here (the end of the text)",
            "    ",
            "    ^",
        ],
    ),
    Refused(
        "[? ]\n",
        &["+STR", "+DOC", "+SEQ", "+MAP", "=VAL :", "=VAL :", "-MAP"],
        &[
            "standard input:2:1: refused by 11: ',' or ']' of the flow sequence is expected here (the end of the text)",
            "    ",
            "    ^",
        ],
    ),
    Refused(
        "- a\nb: c\n",
        &["+STR", "+DOC", "+SEQ", "=VAL :a"],
        &["standard input:2:1: refused by 12: '-' of the block sequence is expected here", "    b: c", "    ^"],
    ),
    Refused(
        "&a !e!x y\n",
        &["+STR", "+DOC"],
        &[
            "standard input:1:1: refused by 13: a tag whose handle no %TAG directive declares",
            "    &a !e!x y",
            "    ^",
        ],
    ),
];

#[test]
fn a_refusal_has_its_number_its_sentence_and_its_line() {
    NUMBERS.iter().for_each(Refused::check);
}

#[test]
fn the_scanner_has_its_own_words() {
    let words =
        "refused by the scanner: while scanning a quoted scalar, found unexpected end of stream";
    Refused(
        "a: 1\nb: 'open\n",
        &["+STR", "+DOC", "+MAP", "=VAL :a", "=VAL :1", "=VAL :b"],
        &[&format!("standard input:2:4: {words}"), "    b: 'open", "       ^"],
    )
    .check();
    let err = format!("standard input:1:1: {words}\n    \"\n    ^\n");
    assert_eq!(tool_fed(&["tokens", "-"], b"\""), Given::new(1, "StreamStart 0-0\n", &err));
    let rooms = tool_fed(&["rooms", "-"], b"\"");
    assert_eq!((rooms.code, rooms.err), (1, err));
}

/// The machine's refusal comes before an error of the scanner that stands behind it.
#[test]
fn the_first_refusal_is_said() {
    Refused(
        "*a : 1\n'open\n",
        &["+STR", "+DOC", "+MAP"],
        &["standard input:1:1: refused by 7: an alias with no such anchor", "    *a : 1", "    ^"],
    )
    .check();
}

#[test]
fn wrong_words_end_with_2() {
    for (words, message) in [
        (&[][..], "no command given"),
        (&["event", "a.yaml"], "there is no command event"),
        (&["events"], "no file given; - is standard input"),
        (&["events", "--spans"], "no file given; - is standard input"),
        (&["events", "a.yaml", "b.yaml"], "one file at a time, not a.yaml and b.yaml"),
        (&["events", "-", "a.yaml"], "one file at a time, not standard input and a.yaml"),
        (&["events", "--span", "a.yaml"], "events has no option --span"),
        (&["tokens", "--json", "a.yaml"], "tokens has no option --json"),
        (&["rooms", "--spans", "a.yaml"], "rooms has no option --spans"),
        (
            &["events", "--keep-anchors", "--forget", "-"],
            "--keep-anchors and --forget: one of the two",
        ),
    ] {
        let err = format!("saphyr-events: {message} (saphyr-events --help)\n");
        assert_eq!(tool(words), Given::new(2, "", &err), "{words:?}");
    }
}

#[test]
fn a_file_that_cannot_be_read_ends_with_2() {
    for (name, message) in [
        ("no-such-file.yaml", "there is no such file"),
        ("examples", "a directory, not a file"),
        ("README.md/x", "cannot be read: Not a directory (os error 20)"),
    ] {
        for command in ["events", "tokens", "rooms"] {
            let err = format!("saphyr-events: {name}: {message}\n");
            assert_eq!(tool(&[command, name]), Given::new(2, "", &err));
        }
    }
    // Behind -- every word is a name.
    let err = "saphyr-events: -: there is no such file\n";
    assert_eq!(tool(&["events", "--", "-"]), Given::new(2, "", err));
    let err = "saphyr-events: --json: there is no such file\n";
    assert_eq!(tool(&["events", "--", "--json"]), Given::new(2, "", err));
    assert_eq!(tool_fed(&["events", "-", "--"], b"#\n"), Given::new(0, "+STR\n-STR\n", ""));
}

#[test]
fn an_empty_file_is_a_stream_without_a_document() {
    let err = "standard input: empty, a stream without a document\n";
    assert_eq!(tool_fed(&["events", "-"], b""), Given::new(0, "+STR\n-STR\n", err));
    let comment = tool_fed(&["events", "-"], b"# only this\n");
    assert_eq!(comment, Given::new(0, "+STR\n-STR\n", ""));
}

#[test]
fn bytes_that_are_no_text_are_refused() {
    let latin = tool_fed(&["events", "-"], b"a: 1\nb: \xc3\xa9\xe9\n");
    let err = "standard input:2:5: not UTF-8: byte 0xe9 at offset 10\n";
    assert_eq!(latin, Given::new(1, "", err));
    let wide = tool_fed(&["tokens", "-"], b"\xff\xfea\0");
    let err = "standard input:1:1: not UTF-8: byte 0xff at offset 0; it seems to be UTF-16\n";
    assert_eq!(wide, Given::new(1, "", err));
    let cut = tool_fed(&["rooms", "-"], b"a\xe6\x97");
    assert_eq!(cut, Given::new(1, "", "standard input:1:2: not UTF-8: byte 0xe6 at offset 1\n"));
}

/// A file of its own for a test.
fn written(name: &str, text: &str) -> PathBuf {
    let path = Path::new(env!("CARGO_TARGET_TMPDIR")).join(name);
    fs::write(&path, text).expect("a file for the test");
    path
}

fn name(path: &Path) -> &str {
    path.to_str().expect("a plain name")
}

#[test]
fn a_text_at_its_limit_is_read_and_one_byte_more_is_27() {
    let mut text = "#".repeat(16_777_216);
    let path = written("limit.yaml", &text);
    assert_eq!(tool(&["events", name(&path)]), Given::new(0, "+STR\n-STR\n", ""));
    text.push('#');
    fs::write(&path, text).expect("a file for the test");
    let err = format!("{}: refused by 27: more than 16,777,216 bytes of text\n", name(&path));
    for command in ["events", "tokens", "rooms"] {
        assert_eq!(tool(&[command, name(&path)]), Given::new(1, "", &err));
    }
    fs::remove_file(path).expect("the test's own file");
}

/// What the scanner makes of escapes stands behind the file in the text.
#[test]
fn escapes_count_as_text() {
    let yaml = format!("\"\\t{}\"", "x".repeat(9_000_000));
    let given = tool_fed(&["events", "-"], yaml.as_bytes());
    let err = "standard input: refused by 27: more than 16,777,216 bytes of text\n";
    assert_eq!(given, Given::new(1, "", err));
}

/// `---` alone makes a token and three events: 65,536 tokens are 3 x 65,536 - 4 events.
#[test]
fn a_list_at_its_limit_runs_and_one_token_more_is_26() {
    let yaml = "---\n".repeat(65_534);
    let given = tool_fed(&["events", "-"], yaml.as_bytes());
    assert_eq!((given.code, given.err.as_str()), (0, ""));
    assert_eq!(given.out.lines().count(), 3 * 65_536 - 4);
    let err = "standard input: refused by 26: more than 65,536 tokens\n";
    for command in ["events", "tokens", "rooms"] {
        let longer = format!("{yaml}---\n");
        assert_eq!(tool_fed(&[command, "-"], longer.as_bytes()), Given::new(1, "", err));
    }
}

/// As with `head -n 1`. The refusal behind the events is said all the same.
#[test]
fn a_closed_pipe_is_no_panic() {
    let accepted = written("pipe.yaml", &"---\n".repeat(60_000));
    let refused = written("pipe-refused.yaml", &("---\n".repeat(60_000) + "*a\n"));
    let err = format!(
        "{}:60001:1: refused by 7: an alias with no such anchor\n    *a\n    ^\n",
        name(&refused)
    );
    for (path, code, err) in [(accepted, 0, String::new()), (refused, 1, err)] {
        let started =
            command(&["events", name(&path)]).stdout(Stdio::piped()).stderr(Stdio::piped()).spawn();
        let mut child = started.expect("the command starts");
        let mut first = [0; 5];
        child.stdout.take().expect("a pipe").read_exact(&mut first).expect("a first line");
        assert_eq!(&first, b"+STR\n");
        let output = child.wait_with_output().expect("the command ends");
        let said = String::from_utf8(output.stderr).expect("UTF-8");
        assert_eq!((output.status.code(), said), (Some(code), err));
        fs::remove_file(path).expect("the test's own file");
    }
}

#[test]
fn an_output_that_cannot_be_written_ends_with_2() {
    let full = fs::OpenOptions::new().write(true).open("/dev/full").expect("Linux has it");
    let output = command(&["events", "examples/pipeline-repaired.yaml"]).stdout(full).output();
    let output = output.expect("the command ends");
    let err =
        "saphyr-events: standard output cannot be written: No space left on device (os error 28)\n";
    assert_eq!(output.status.code(), Some(2));
    assert_eq!(String::from_utf8(output.stderr).expect("UTF-8"), err);
}
