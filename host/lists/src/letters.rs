//! Lists a to l of document 01 with the Rust's answers, as the program `lists_a_to_l` writes its own.
use crate::list::List;
use crate::named;
use oracle::answer;
use records::kinds::{self, DOCUMENT_END, STREAM_END, STREAM_START};
use records::sizes::MAX_TOKENS;
use records::{decode_events, Case, Ev, Settings, Tok};

/// For each list its name, the number, count and place, and the events.
pub fn letters() -> String {
    let is_letter =
        |name: &str| name.starts_with(|c| ('a'..='l').contains(&c)) && !name.starts_with('k');
    let named = named::all().map(|named| (named.name, named.case));
    let short = named.filter(|(name, _)| is_letter(name) && name[1..].starts_with(": "));
    let mut all: Vec<(String, Case)> = short.collect();
    all.push(("k: 65,536 tokens".to_owned(), ends(MAX_TOKENS)));
    all.push(("k: 65,537 tokens".to_owned(), ends(MAX_TOKENS + 1)));
    all.sort_by(|(left, _), (right, _)| left.cmp(right));
    all.iter().map(|(name, case)| shown(name, case)).collect()
}

/// k in little memory: every token is looked at, and the events are two.
fn ends(tokens: usize) -> Case {
    let mut list = List { tokens: vec![Tok::new(DOCUMENT_END); tokens], text: Vec::new() };
    list.tokens[0] = Tok::new(STREAM_START);
    list.tokens[tokens - 1] = Tok::new(STREAM_END);
    Case::roomy(&list.tokens, &list.text, Settings::default())
}

fn shown(name: &str, case: &Case) -> String {
    let found = answer(case);
    let head = format!(
        "{name}\n  number {}, count {}, place {}\n",
        found.number, found.count, found.place
    );
    decode_events(&found.events).iter().fold(head, |lines, event| lines + &line(event))
}

fn line(event: &Ev) -> String {
    let name = kinds::event::NAMES[event.kind as usize];
    let number = match event.number {
        0 => String::new(),
        number => format!(" number {number}"),
    };
    format!("  {name} {}-{}{number}\n", event.start, event.end)
}
