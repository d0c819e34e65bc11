//! The first checks, and answers that need no run.
use oracle::{answer, first_checks};
use records::{encode, flag, Answer, Case, Range, Settings, Tok};

const TEXT: &[u8] = b"abc";

fn check(token: Tok) -> Option<(u32, u32)> {
    let sound = Tok::new(1);
    first_checks(&encode(&[sound, token, token]), TEXT)
}

#[test]
fn kinds_are_1_to_23() {
    for kind in 1..=23 {
        assert_eq!(check(Tok::new(kind)), None, "kind {kind}");
    }
    for kind in [0, 24, 255, 256, u32::MAX] {
        assert_eq!(check(Tok::new(kind)), Some((21, 1)), "kind {kind}");
    }
}

#[test]
fn only_used_fields_are_judged() {
    let bad = [Range::new(1, 0), Range::new(0, 4), Range::new(4, 4), Range::new(u32::MAX, 0)];
    for kind in 1..=23 {
        let judged = |used: &[u32]| used.contains(&kind).then_some((21, 1));
        for range in bad {
            let token = Tok { a: range, ..Tok::new(kind) };
            assert_eq!(check(token), judged(&[4, 20, 21, 22, 23]), "a of kind {kind}");
            let token = Tok { b: range, ..Tok::new(kind) };
            assert_eq!(check(token), judged(&[4, 22]), "b of kind {kind}");
        }
        for style in [5, 256, u32::MAX] {
            let token = Tok { style, ..Tok::new(kind) };
            assert_eq!(check(token), judged(&[23]), "style of kind {kind}");
        }
    }
}

#[test]
fn ranges_may_end_where_the_text_ends() {
    for (from, to) in [(0, 0), (0, 3), (3, 3), (1, 2)] {
        let range = Range::new(from, to);
        assert_eq!(check(Tok { a: range, b: range, style: 4, ..Tok::new(22) }), None);
        assert_eq!(check(Tok { a: range, style: 4, ..Tok::new(23) }), None);
    }
}

#[test]
fn lengths_come_first() {
    let bad = encode(&[Tok::new(0)]);
    assert_eq!(first_checks(&bad[..31], TEXT), Some((20, 0)));
    assert_eq!(first_checks(&bad, TEXT), Some((21, 0)));
    assert_eq!(first_checks(&[], TEXT), None);
}

#[test]
fn a_short_answer_buffer_is_28_before_all() {
    for answer_len in 0..12 {
        let case = Case { answer_len, tokens: vec![0; 33], ..Case::default() };
        let case = case.with_lengths([48, 8, 12, 16]);
        let found = answer(&Case { fill: 9, ..case });
        let none = Answer::NONE;
        let numbers = [found.returned, found.number, found.count, found.place];
        assert_eq!(numbers, [28, none, none, none]);
        assert_eq!(found.flags & flag::LOOKED_AT, 1 + 16 + 32 + 64 + 128);
    }
}

#[test]
fn a_refused_list_leaves_the_work_buffers_zero() {
    let mut case = Case::roomy(&[Tok::new(1), Tok::new(24)], TEXT, Settings::default());
    case.answer_len = 20;
    let found = answer(&case);
    assert_eq!([found.returned, found.number, found.count, found.place], [21, 21, 0, 1]);
    assert_eq!(found.flags, flag::FROM_CHECKS + 1 + 2 + 4 + 8 + 128);
}
