//! The fixture in the repository is what the code makes now.
use records::{read_frame, Frame};
use std::collections::BTreeSet;
use std::fs;
use std::path::Path;

const DIRECTORY: &str = concat!(env!("CARGO_MANIFEST_DIR"), "/../../crates/replay/data");

#[test]
fn the_files_are_those_that_are_made_now() {
    let mut made = BTreeSet::new();
    for (class, bytes) in lists::fixture() {
        let path = Path::new(DIRECTORY).join(class).with_extension("bin");
        let file = fs::read(&path).expect("a file of the fixture");
        assert!(file == bytes, "{class}: make the fixture again and look at the change");
        made.insert(path.file_name().expect("a name").to_owned());
    }
    let there = fs::read_dir(DIRECTORY).expect("the fixture");
    let there = there.map(|entry| entry.expect("an entry").file_name()).collect();
    assert_eq!(made, there, "files that no class makes");
}

/// Each a case and its answer, within the limits that `tests/README.md` states.
#[test]
fn the_fixture_holds_what_it_promises() {
    let (mut numbers, mut cases, mut size) = (BTreeSet::new(), 0, 0);
    for (class, bytes) in lists::fixture() {
        let mut input = &bytes[..];
        size += bytes.len();
        while let Some(frame) = read_frame(&mut input).expect("a frame") {
            let Frame::Case(case) = frame else { panic!("{class}: a case first") };
            let answer = read_frame(&mut input).expect("a frame");
            let Some(Frame::Answer(answer)) = answer else { panic!("{class}: then its answer") };
            assert!(!answer.failed(), "{class}: {case:?}");
            assert!(case.tokens.len() <= 2_048 && case.text.len() <= 256, "{class}: {case:?}");
            assert!(answer.events.len() <= 9_600 && answer.side.len() <= 2_048, "{class}");
            let lengths = case.lengths();
            let most = [9_600, 544, 816, 1_088];
            assert!((0..4).all(|i| lengths[i] <= most[i]), "{class}: {lengths:?}");
            assert!(case.answer_len <= 64 && case.fill <= 255, "{class}: {case:?}");
            numbers.insert(answer.returned);
            cases += 1;
        }
    }
    let expected: BTreeSet<u32> = (0..=14).chain(20..=25).chain([28]).collect();
    assert_eq!(numbers, expected, "every number but 26 and 27, which need long inputs");
    assert!(cases > 3_500 && size < 4_000_000, "{cases} cases, {size} bytes");
}
