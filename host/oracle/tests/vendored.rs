//! The noted copy and the messages against the vendored parser.rs.
const VENDORED: &str = include_str!("../../vendor/parser.rs");
const NOTED: &str = include_str!(concat!(env!("OUT_DIR"), "/parser_noted.rs"));

#[test]
fn the_noted_copy_without_its_notes_is_the_vendored_file() {
    let added = |line: &&str| line.ends_with("// added\n");
    let kept: String = NOTED.split_inclusive('\n').filter(|line| !added(line)).collect();
    assert!(kept == VENDORED, "a line of parser.rs was changed");
    assert_eq!(NOTED.split_inclusive('\n').filter(added).count(), 3 + 4);
    assert_eq!(VENDORED.split_inclusive('\n').filter(added).count(), 0);
}

/// Every message that parser.rs refuses with has its number, but for the one of `load` that no fresh parser gives.
#[test]
fn every_message_has_its_number() {
    let code = VENDORED.lines().filter(|line| !line.trim_start().starts_with("//"));
    let code = code.collect::<Vec<_>>().join("\n");
    let calls = code.split("ScanError::new_str(").skip(1);
    let numbers: Vec<Option<u32>> = calls
        .map(|call| call.split('"').nth(1).expect("a message in quotes"))
        .map(oracle::number_of)
        .collect();
    let once = [2, 3, 4, 6, 7, 8, 9, 10, 11, 12, 13, 14].map(|number| (number, 1));
    // 1 stands in `stream_start` and, out of reach, in `load`; 5 in both document states.
    let expected = once.into_iter().chain([(1, 2), (5, 2)]);
    for (number, times) in expected {
        let found = numbers.iter().filter(|found| **found == Some(number)).count();
        assert_eq!(found, times, "number {number}");
    }
    assert_eq!(numbers.iter().filter(|number| number.is_none()).count(), 1);
    assert_eq!(oracle::number_of("did not find expected <document-start>"), None);
}
