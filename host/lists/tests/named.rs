//! The Rust gives what document 01 and the rules written from it say.
use oracle::answer;
use records::Answer;

#[test]
fn named_lists_are_as_written() {
    let found = lists::named::all().filter_map(|named| named.difference(&answer(&named.case)));
    let differences: Vec<String> = found.collect();
    assert!(differences.is_empty(), "{}", differences.join("\n"));
}

#[test]
fn lists_a_to_l_and_the_traps_are_all_there() {
    let names: Vec<String> = lists::named::all().map(|named| named.name).collect();
    let there = |prefix: &str| names.iter().any(|name| name.starts_with(prefix));
    for letter in 'a'..='l' {
        assert!(there(&format!("{letter}: ")), "list {letter}");
    }
    for trap in 1..=39 {
        assert!(there(&format!("trap {trap}: ")), "trap {trap}");
    }
}

#[test]
fn another_answer_is_noticed() {
    let named = lists::named::all().find(|named| named.name.starts_with("e:")).expect("list e");
    let right = answer(&named.case);
    let edits: [fn(&mut Answer); 6] = [
        |a| a.returned = 1,
        |a| a.number = 1,
        |a| a.count = 9,
        |a| a.place = 1,
        |a| a.flags &= !8,
        |a| a.events[9 * 48] = 1,
    ];
    for edit in edits {
        let mut other = right.clone();
        edit(&mut other);
        assert!(named.difference(&other).is_some(), "{other:?}");
    }
}
