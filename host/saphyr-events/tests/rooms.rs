//! The memory to lend is said three times, by the function, by the C header and by the table of README, and is one.
use saphyr_events::{rooms, MAX_TEXT, MAX_TOKENS};
use std::path::{Path, PathBuf};
use std::process::Command;
use std::{env, fs};

/// A file of the top folder.
fn top(path: &str) -> PathBuf {
    Path::new(env!("CARGO_MANIFEST_DIR")).join("../..").join(path)
}

/// What `tests/c/rooms.c` prints, which has it from the header. The C compiler is the one that links Rust programs.
fn header_lines() -> String {
    let program = Path::new(env!("CARGO_TARGET_TMPDIR")).join("rooms");
    let compiler = env::var("CC").unwrap_or_else(|_| "cc".to_owned());
    let built = Command::new(&compiler)
        .arg("-std=c11")
        .arg("-I")
        .arg(top("include"))
        .arg(top("tests/c/rooms.c"))
        .arg("-o")
        .arg(&program)
        .status();
    assert!(built.is_ok_and(|status| status.success()), "{compiler} compiles tests/c/rooms.c");
    let output = Command::new(&program).output().expect("the program runs");
    assert!(output.status.success(), "the macros are constants");
    String::from_utf8(output.stdout).expect("numbers")
}

#[test]
fn the_header_and_the_function_agree() {
    let lines = header_lines();
    let mut lines = lines.lines();
    for tokens in 0..=MAX_TOKENS {
        let room = rooms(tokens).expect("within the limit");
        let parts = [tokens, room.events, room.states, room.anchors, room.handles];
        let line = parts.map(|part| part.to_string()).join(" ");
        assert_eq!(lines.next(), Some(line.as_str()));
    }
    assert_eq!(lines.next(), None, "the header's limit is the function's");
    assert_eq!(rooms(MAX_TOKENS + 1), None);
}

#[test]
fn the_header_has_the_limits() {
    let header = fs::read_to_string(top("include/saphyr_events.h")).expect("the header");
    assert!(header.contains(&format!("#define SAPHYR_MAX_TOKENS {MAX_TOKENS}\n")));
    assert!(header.contains(&format!("#define SAPHYR_MAX_TEXT_BYTES {MAX_TEXT}\n")));
}

/// 3 events of 48 bytes, and places of 8, 12 and 16 bytes, for each token.
#[test]
fn a_token_asks_for_180_bytes() {
    for tokens in [0, 1, 7, MAX_TOKENS] {
        let room = rooms(tokens).expect("within the limit");
        assert_eq!(room.total(), 180 * tokens);
        assert_eq!(
            [room.events, room.states, room.anchors, room.handles],
            [144, 8, 12, 16].map(|b| b * tokens)
        );
    }
}

/// With commas, as README writes numbers.
fn grouped(number: usize) -> String {
    let digits = number.to_string();
    let groups = digits.as_bytes().rchunks(3).rev();
    let groups: Vec<&str> =
        groups.map(|group| std::str::from_utf8(group).expect("digits")).collect();
    groups.join(",")
}

#[test]
fn the_table_of_readme_is_computed_by_the_function() {
    let readme = fs::read_to_string(top("README.md")).expect("README");
    let (_, section) = readme.split_once("\n## Memory to lend\n").expect("README has the section");
    let rows: Vec<&str> = section.lines().skip_while(|line| !line.starts_with('|')).collect();
    let rows = rows.iter().skip(2).take_while(|line| line.starts_with('|')).copied();
    let expected = [1, 10, 100, 1_000, 10_000, 65_536].map(|tokens| {
        let room = rooms(tokens).expect("within the limit");
        let parts = [tokens, room.events, room.states, room.anchors, room.handles, room.total()];
        format!("| {} |", parts.map(grouped).join(" | "))
    });
    assert_eq!(rows.collect::<Vec<_>>(), expected);
}
