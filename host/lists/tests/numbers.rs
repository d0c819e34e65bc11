//! The table that `crates/rules` proves is what the Rust gives, and no number, setting, tag source or style is missing.
use lists::numbers::{rows, table, Said};
use records::kinds::{event, LAST_STYLE, TAG, TAG_DIRECTIVE};
use records::{decode, Ev, Range, Settings, Tok};
use std::fs;
use std::path::Path;

#[test]
fn the_table_is_what_the_rust_gives() {
    let of = "../../crates/rules/specs/Numbers.antt";
    let path = Path::new(env!("CARGO_MANIFEST_DIR")).join(of);
    let found = fs::read_to_string(&path).unwrap_or_else(|error| panic!("{of}: {error}"));
    assert!(table() == found, "lists numbers > crates/rules/specs/Numbers.antt");
}

fn all() -> Vec<Said> {
    rows().map(|row| row.said()).collect()
}

#[test]
fn every_number_and_every_style_is_there() {
    let all = all();
    for number in 0..=14 {
        assert!(all.iter().any(|said| said.answer.number == number), "number {number}");
    }
    for style in 0..=LAST_STYLE {
        let mut events = all.iter().flat_map(|said| &said.events);
        let is_it = |found: &Ev| found.kind == event::SCALAR && found.style == style;
        let there = events.any(|found| is_it(found) && found.value != Range::default());
        assert!(there, "style {style}");
    }
}

/// The range that a token gives to a tag's prefix.
fn prefix(token: &Tok) -> Option<Range> {
    match token.kind {
        TAG_DIRECTIVE => Some(token.b),
        TAG => Some(token.a),
        _ => None,
    }
}

#[test]
fn every_tag_source_is_there() {
    let all = all();
    for source in 0..=2 {
        let mut events = all.iter().flat_map(|said| &said.events);
        assert!(events.any(|event| event.source == source), "source {source}");
    }
    for (kind, what) in [(TAG_DIRECTIVE, "a declared prefix"), (TAG, "a handle that stays itself")]
    {
        let there = all.iter().any(|said| {
            let tokens = decode(&said.case.tokens).into_iter().filter(|token| token.kind == kind);
            let prefixes: Vec<Range> = tokens.filter_map(|token| prefix(&token)).collect();
            let mut events = said.events.iter();
            events.any(|event| event.source == 2 && prefixes.contains(&event.prefix))
        });
        assert!(there, "{what}");
    }
}

/// Whether some list stands there with both settings, and `tell` tells its two answers apart.
fn tells(
    all: &[Said],
    one: Settings,
    other: Settings,
    tell: impl Fn(&Said, &Said) -> bool,
) -> bool {
    let with = |settings| all.iter().filter(move |said| said.case.settings() == settings);
    let same =
        |l: &Said, r: &Said| (&l.case.tokens, &l.case.text) == (&r.case.tokens, &r.case.text);
    with(one).any(|left| with(other).any(|right| same(left, right) && tell(left, right)))
}

#[test]
fn every_setting_makes_a_difference() {
    let all = all();
    for (i, one) in Settings::ALL.into_iter().enumerate() {
        for other in Settings::ALL.into_iter().skip(i + 1) {
            let events = tells(&all, one, other, |left, right| left.events != right.events);
            assert!(events, "{one:?}, {other:?}");
        }
    }
    let neither = Settings::default();
    for one in [Settings { keep: true, ..neither }, Settings { forget: true, ..neither }] {
        let number = |left: &Said, right: &Said| left.answer.number != right.answer.number;
        assert!(tells(&all, one, neither, number), "{one:?}");
    }
}
