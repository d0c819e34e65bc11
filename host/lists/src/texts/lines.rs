//! A list in the notation of `notation.rs`, events in that of the YAML test suite, and lines of JSON.
use crate::list::List;
use oracle::Run;
use records::kinds::{event, token_kind, SCALAR};
use records::{tag_bytes, Ev, Range, Tok};

/// The list as `notation::list` reads it.
pub fn spelt(list: &List) -> String {
    let words: Vec<String> = list.tokens.iter().map(|token| word(token, &list.text)).collect();
    words.join(" ")
}

fn word(token: &Tok, text: &[u8]) -> String {
    let mut word = token_kind(token.kind).short.to_owned();
    let cut = |range: Range| String::from_utf8_lossy(range.cut(text).unwrap_or_default());
    let texts: Vec<_> = token.used_ranges().map(cut).collect();
    if !texts.is_empty() {
        word += &format!("({})", texts.join(","));
    }
    if token.kind == SCALAR && token.style != 0 {
        word += &format!(":{}", token.style);
    }
    word
}

/// The events of a run, a line each.
pub fn events(run: &Run, text: &[u8]) -> Vec<String> {
    run.events.iter().map(|event| line(event, text, &run.side)).collect()
}

fn line(given: &Ev, text: &[u8], side: &[u8]) -> String {
    let id = |mark: &str| {
        if given.number == 0 {
            String::new()
        } else {
            format!(" {mark}{}", given.number)
        }
    };
    let tag = tag_bytes(given, text, side).map_or(String::new(), |(prefix, suffix)| {
        format!(" <{}>", String::from_utf8_lossy(&[prefix, suffix].concat()))
    });
    match given.kind {
        event::STREAM_START => "+STR".to_owned(),
        event::STREAM_END => "-STR".to_owned(),
        event::DOCUMENT_START => if given.number == 1 { "+DOC ---" } else { "+DOC" }.to_owned(),
        event::DOCUMENT_END => "-DOC".to_owned(),
        event::ALIAS => format!("=ALI{}", id("*")),
        event::SEQUENCE_START => format!("+SEQ{}{tag}", id("&")),
        event::SEQUENCE_END => "-SEQ".to_owned(),
        event::MAPPING_START => format!("+MAP{}{tag}", id("&")),
        event::MAPPING_END => "-MAP".to_owned(),
        _ => {
            let mark = [':', '\'', '"', '|', '>'][given.style as usize];
            let value = String::from_utf8_lossy(given.value.cut(text).unwrap_or_default());
            format!("=VAL{}{tag} {mark}{value}", id("&"))
        }
    }
}

/// A string of JSON.
pub fn quoted(text: &str) -> String {
    let mut out = String::from("\"");
    for c in text.chars() {
        match c {
            '"' | '\\' => out.extend(['\\', c]),
            c if c.is_control() || c == '\u{feff}' => out += &format!("\\u{:04x}", u32::from(c)),
            c => out.push(c),
        }
    }
    out + "\""
}
