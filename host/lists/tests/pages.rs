//! Each list with an arrow on the project's pages is answered by the Rust as the page says: a list in backticks, perhaps
//! settings and rooms, the arrow, `NUMBER after COUNT` and, of a refusal, `at PLACE`.
use lists::notation;
use oracle::answer;
use records::{Case, Rooms, Settings};
use std::{fs, path::Path};

/// A line of a page that has an answer.
struct Line<'a> {
    list: &'a str,
    options: &'a str,
    answer: [u32; 3],
}

/// Every arrow of a page with what stands around it.
fn lines(page: &str) -> Vec<Line<'_>> {
    page.match_indices('→')
        .map(|(at, arrow)| line(&page[..at], &page[at + arrow.len()..]))
        .collect()
}

fn line<'a>(before: &'a str, after: &'a str) -> Line<'a> {
    let (head, options) = before.rsplit_once('`').expect("a list in backticks");
    let (_, list) = head.rsplit_once('`').expect("a list in backticks");
    let words: Vec<&str> =
        after.split(|c: char| !c.is_alphanumeric()).filter(|w| !w.is_empty()).take(5).collect();
    let number = |i: usize| words[i].parse().unwrap_or_else(|_| panic!("{list}: {words:?}"));
    assert_eq!(words[1], "after", "{list}");
    let place = if number(0) == 0 { 0 } else { number(4) };
    Line { list, options, answer: [number(0), number(2), place] }
}

fn case(line: &Line) -> Case {
    let list = notation::list("", line.list);
    let has = |word: &str| line.options.split_whitespace().any(|option| option == word);
    let settings = Settings { keep: has("keep"), forget: has("forget") };
    let case = Case::roomy(&list.tokens, &list.text, settings);
    let mut rooms = case.rooms();
    for option in line.options.split_whitespace().filter(|option| option.contains('=')) {
        lend(&mut rooms, option);
    }
    case.with_rooms(rooms)
}

fn lend(rooms: &mut Rooms, option: &str) {
    let (name, places) = option.split_once('=').expect("a room");
    let places = places.parse().unwrap_or_else(|_| panic!("{option}"));
    match name {
        "events" => rooms.events = places,
        "states" => rooms.states = places,
        "anchors" => rooms.anchors = places,
        "handles" => rooms.handles = places,
        _ => panic!("{option}"),
    }
}

fn held_to(page: &str, least: usize) {
    let path = Path::new(env!("CARGO_MANIFEST_DIR")).join("../../docs").join(page);
    let text = fs::read_to_string(&path).expect(page);
    let lines = lines(&text);
    assert!(lines.len() >= least, "{page} has {} lists", lines.len());
    for line in &lines {
        let found = answer(&case(line));
        let found = [found.number, found.count, found.place];
        assert_eq!(line.answer, found, "{page}: {} {}", line.list, line.options);
    }
}

#[test]
fn differences_are_as_the_rust_answers() {
    held_to("DIFFERENCES.md", 30);
}

#[test]
fn decisions_are_as_the_rust_answers() {
    held_to("DECISIONS.md", 15);
}
