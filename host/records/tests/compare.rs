//! What counts as a difference of two answers.
use records::{difference, encode_events, failure, flag, Answer, Case, Ev, Range, Settings, SIDE};

fn case() -> Case {
    Case::roomy(&[], b"xxpt", Settings::default())
}

fn answer(event: Ev, side: &[u8]) -> Answer {
    Answer {
        count: 1,
        flags: 143,
        events: encode_events(&[event]),
        side: side.to_vec(),
        ..Answer::default()
    }
}

/// A tag as a program gives it, with prefix and suffix in the text.
fn in_text() -> Ev {
    Ev { kind: 6, source: 2, prefix: Range::new(2, 3), suffix: Range::new(3, 4), ..Ev::default() }
}

/// The same tag as the oracle gives it.
fn in_side() -> Ev {
    Ev { source: SIDE, prefix: Range::new(0, 1), suffix: Range::new(1, 2), ..in_text() }
}

#[test]
fn tags_are_compared_by_their_bytes() {
    let (program, oracle) = (answer(in_text(), b""), answer(in_side(), b"pt"));
    assert_eq!(difference(&case(), &program, &oracle), None);
    assert!(difference(&case(), &program, &answer(in_side(), b"qt")).is_some());
    assert!(difference(&case(), &program, &answer(in_side(), b"pq")).is_some());
}

#[test]
fn source_1_is_the_constant_with_no_prefix_range() {
    let core = b"tag:yaml.org,2002:t";
    let oracle = Ev { prefix: Range::new(0, 18), suffix: Range::new(18, 19), ..in_side() };
    let program = Ev { source: 1, prefix: Range::default(), ..in_text() };
    assert_eq!(difference(&case(), &answer(program, b""), &answer(oracle, core)), None);
    let dirty = Ev { prefix: Range::new(0, 1), ..program };
    assert!(difference(&case(), &answer(dirty, b""), &answer(oracle, core)).is_some());
}

#[test]
fn a_tag_and_no_tag_differ() {
    let none = Ev { kind: 6, ..Ev::default() };
    assert!(difference(&case(), &answer(none, b""), &answer(in_side(), b"pt")).is_some());
    assert!(difference(&case(), &answer(in_side(), b"pt"), &answer(none, b"")).is_some());
}

#[test]
fn every_number_of_an_event_counts() {
    let plain = answer(in_text(), b"");
    for field in 0..Ev::FIELDS.len() {
        let mut other = plain.clone();
        other.events[4 * field] ^= 0x40;
        let found = difference(&case(), &plain, &other).expect(Ev::FIELDS[field]);
        assert!(found.contains(Ev::FIELDS[field]), "{found}");
        let tagged = answer(in_side(), b"pt");
        assert!(difference(&case(), &tagged, &other).is_some(), "{}", Ev::FIELDS[field]);
    }
}

#[test]
fn every_part_of_the_head_counts() {
    let plain = answer(in_text(), b"");
    let edits: [fn(&mut Answer); 7] = [
        |a| a.returned = 1,
        |a| a.number = 1,
        |a| a.count = 2,
        |a| a.place = 1,
        |a| a.flags ^= flag::EVENT_TAIL_KEPT,
        |a| a.events.clear(),
        |a| a.events.push(0),
    ];
    for edit in edits {
        let mut other = plain.clone();
        edit(&mut other);
        assert!(difference(&case(), &plain, &other).is_some(), "{other:?}");
    }
}

#[test]
fn bytes_after_the_last_whole_event_count() {
    let mut left = answer(in_text(), b"");
    left.events.push(1);
    let mut right = left.clone();
    right.events[48] = 2;
    assert!(difference(&case(), &left, &right).is_some());
}

#[test]
fn how_an_answer_was_had_does_not_count() {
    let plain = answer(in_text(), b"");
    let noted = Answer { flags: plain.flags | flag::FROM_NOTED | flag::CARRIED, ..plain.clone() };
    assert_eq!(difference(&case(), &plain, &noted), None);
}

#[test]
fn a_failed_oracle_is_always_a_difference() {
    for number in failure::ALL {
        let failed = Answer { number, returned: number, ..Answer::default() };
        assert!(difference(&case(), &failed, &failed).is_some());
    }
}
