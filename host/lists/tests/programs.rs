//! What the programs of `crates/` are run on and must write is what the Rust gives, never what they gave.
use records::{read_frame, Frame};
use std::fs;
use std::path::Path;

fn file(of: &str) -> String {
    let path = Path::new(env!("CARGO_MANIFEST_DIR")).join("../../crates").join(of);
    fs::read_to_string(&path).unwrap_or_else(|error| panic!("{of}: {error}"))
}

#[test]
fn lists_a_to_l_are_answered_as_by_the_rust() {
    let made = lists::letters();
    assert!(made == file("lists_a_to_l/stdout"), "lists letters > crates/lists_a_to_l/stdout");
    let letters: String =
        made.lines().filter(|line| !line.starts_with(' ')).map(|line| &line[..1]).collect();
    assert_eq!(letters, "abcdefgghijkkl");
}

/// Cases of a file of the fixture; each is followed by its answer.
fn cases(bytes: &[u8]) -> usize {
    let (mut input, mut count) = (bytes, 0);
    while let Some(frame) = read_frame(&mut input).expect("a frame") {
        count += usize::from(matches!(frame, Frame::Case(_)));
    }
    count
}

/// The replay is given every file, and no case may differ.
#[test]
fn the_replay_is_of_the_whole_fixture() {
    let mut files: Vec<(String, usize)> =
        lists::fixture().map(|(class, bytes)| (format!("{class}.bin"), cases(&bytes))).collect();
    files.sort();
    let arguments: String = files.iter().map(|(name, _)| format!("{name}\n")).collect();
    assert_eq!(file("replay/args"), arguments);
    let all = files.iter().map(|(_, count)| count).sum();
    files.push(("all".to_owned(), all));
    let lines: String =
        files.iter().map(|(name, count)| format!("{name}: {count} cases, 0 differ\n")).collect();
    assert_eq!(file("replay/stdout"), lines);
}
