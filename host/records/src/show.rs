//! Cases and answers for people: names instead of numbers, one token or event a line.
use crate::answer::{flag, Answer};
use crate::case::Case;
use crate::compare::{show_tag, tag_bytes};
use crate::event::{decode_events, Ev};
use crate::kinds::{self, Uses};
use crate::sizes::TOKEN;
use crate::token::{decode, Range, Tok};

/// The name, the positions and the fields the kind uses.
pub fn show_token(token: &Tok, text: &[u8]) -> String {
    let kind = kinds::token_kind(token.kind);
    let mut line = format!("{} {}-{}", kind.name, token.start, token.end);
    if kind.name == "?" {
        line += &format!(" kind {}", token.kind);
    }
    for (range, name) in token.used_ranges().zip(["a", "b"]) {
        line += &format!(" {name} {}", show_range(range, text));
    }
    if kind.uses == Uses::Value && token.style != 0 {
        line += &format!(" style {}", token.style);
    }
    line
}

/// The name, the positions and every other field that is not 0; an empty scalar is `Scalar 4-5`.
pub fn show_event(event: &Ev, text: &[u8], side: &[u8]) -> String {
    let name = kinds::event::NAMES.get(event.kind as usize).unwrap_or(&"?");
    let mut line = format!("{name} {}-{}", event.start, event.end);
    if *name == "?" {
        line += &format!(" kind {}", event.kind);
    }
    for (name, number) in [("number", event.number), ("style", event.style)] {
        if number != 0 {
            line += &format!(" {name} {number}");
        }
    }
    if event.value != Range::default() {
        line += &format!(" value {}", show_range(event.value, text));
    }
    if [event.prefix, event.suffix] != [Range::default(); 2] || event.source != 0 {
        line += &format!(" tag {}", show_tag(tag_bytes(event, text, side)));
    }
    line
}

/// The numbers, and the bytes where the text has them.
fn show_range(range: Range, text: &[u8]) -> String {
    let numbers = format!("{}..{}", range.from, range.to);
    match range.cut(text) {
        Some(bytes) => format!("{numbers} \"{}\"", bytes.escape_ascii()),
        None => numbers,
    }
}

/// A case: the lent lengths, then the tokens.
pub fn show_case(case: &Case) -> String {
    let [events, states, anchors, handles] = case.lengths();
    let mut lines = format!(
        "case: keep {}, forget {}, text {} bytes, fill {}\n  \
         bytes lent: events {events}, states {states}, anchors {anchors}, handles {handles}, answer {}\n",
        case.keep, case.forget, case.text.len(), case.fill, case.answer_len,
    );
    for (i, token) in decode(&case.tokens).iter().enumerate() {
        lines += &format!("  token {i}: {}\n", show_token(token, &case.text));
    }
    match case.tokens.len() % TOKEN {
        0 => {}
        rest => lines += &format!("  and {rest} bytes that make no token\n"),
    }
    lines
}

/// An answer to a case over `text`.
pub fn show_answer(answer: &Answer, text: &[u8]) -> String {
    let mut lines = match answer.number {
        Answer::NONE => format!("answer: {}, nothing written", answer.returned),
        number => format!("answer: {number}, count {}, place {}", answer.count, answer.place),
    };
    lines += &format!(", flags {}", answer.flags & flag::LOOKED_AT);
    for (note, words) in [
        (flag::FROM_CHECKS, ", by the first checks"),
        (flag::FROM_NOTED, ", by the noted copy"),
        (flag::CARRIED, ", carried"),
    ] {
        lines += if answer.flags & note != 0 { words } else { "" };
    }
    lines += "\n";
    for (i, event) in decode_events(&answer.events).iter().enumerate() {
        lines += &format!("  event {i}: {}\n", show_event(event, text, &answer.side));
    }
    lines
}
