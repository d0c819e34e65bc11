//! `saphyr-events tokens`, `rooms`, `--help` and `--version`.
use crate::call::{tool, tool_fed, Given};

/// Positions are the scanner's: it places the token of `-` at what follows it, with no width.
#[test]
fn tokens_are_printed_one_a_line() {
    let yaml = "%TAG !e! t:\n--- !e!x\n- &n 'a\"b'\n- *n\n- |\n  l\\\n";
    let plain = "StreamStart 0-0\nTagDirective 0-11 \"!e!\" \"t:\"\nDocumentStart 12-15\nTag 16-20 \"!e!\" \"x\"\n\
        BlockSequenceStart 21-21\nBlockEntry 23-23\nAnchor 23-25 \"n\"\nScalar 26-31 \"a\\\"b\" single\nBlockEntry 34-34\n\
        Alias 34-36 \"n\"\nBlockEntry 39-39\nScalar 43-46 \"l\\\\\\n\" literal\nBlockEnd 46-46\nStreamEnd 46-46\n";
    assert_eq!(tool_fed(&["tokens", "-"], yaml.as_bytes()), Given::new(0, plain, ""));
    let spans = "1:1-1:1 StreamStart 0-0\n1:1-1:2 Scalar 0-1 \"é\" plain\n2:1-2:1 StreamEnd 2-2\n";
    assert_eq!(tool_fed(&["tokens", "--spans", "-"], "é\n".as_bytes()), Given::new(0, spans, ""));
}

/// Four tokens: StreamStart, Scalar, DocumentEnd, StreamEnd.
#[test]
fn rooms_are_those_of_the_tokens() {
    let expected = "tokens                        4\nbytes of events             576\n\
        bytes of open states         32\nbytes of anchors             48\nbytes of tag handles         64\n\
        bytes in all                720\n";
    assert_eq!(tool_fed(&["rooms", "-"], b"a\n...\n"), Given::new(0, expected, ""));
}

#[test]
fn help_names_every_option() {
    for (words, parts) in [
        (
            &["--help"][..],
            &["events FILE", "tokens FILE", "rooms FILE", "--version", "Exit code"][..],
        ),
        (
            &["events", "--help"],
            &["--spans", "--json", "--forget", "--keep-anchors", "--keep-tags", "default"],
        ),
        (&["tokens", "-h"], &["--spans"]),
        (&["rooms", "x.yaml", "--help"], &["bytes to lend"]),
    ] {
        let given = tool(words);
        assert_eq!((given.code, given.err.as_str()), (0, ""));
        assert!(parts.iter().all(|part| given.out.contains(part)), "{words:?}: {}", given.out);
    }
}

#[test]
fn the_version_names_the_crate_that_was_ported() {
    let expected = "saphyr-events 0.1.0 (scanner and event machine of saphyr-parser 0.3.3; the machine is proved)\n";
    assert_eq!(tool(&["--version"]), Given::new(0, expected, ""));
}
