//! Events in the notation of the YAML test suite, and tokens.
use records::kinds::{token_kind, SCALAR};
use records::Tok;
use saphyr_events::{Event, EventKind, Node, Style};

/// A line for an event.
pub fn event(event: &Event, text: &[u8]) -> String {
    match &event.kind {
        EventKind::StreamStart => "+STR".to_owned(),
        EventKind::StreamEnd => "-STR".to_owned(),
        EventKind::DocumentStart { explicit: true } => "+DOC ---".to_owned(),
        EventKind::DocumentStart { explicit: false } => "+DOC".to_owned(),
        EventKind::DocumentEnd => "-DOC".to_owned(),
        EventKind::Alias { id } => format!("=ALI *{id}"),
        EventKind::Scalar { node, style, .. } => {
            let value = escaped(event.value_in(text));
            format!("=VAL{} {}{value}", properties(node, text), mark(*style))
        }
        EventKind::SequenceStart(node) => format!("+SEQ{}", properties(node, text)),
        EventKind::SequenceEnd => "-SEQ".to_owned(),
        EventKind::MappingStart(node) => format!("+MAP{}", properties(node, text)),
        EventKind::MappingEnd => "-MAP".to_owned(),
    }
}

fn properties(node: &Node, text: &[u8]) -> String {
    let anchor = node.anchor.map_or(String::new(), |id| format!(" &{id}"));
    let tag = |tag: saphyr_events::Tag| format!(" <{}>", escaped(tag.whole_in(text).as_deref()));
    anchor + &node.tag.map_or(String::new(), tag)
}

fn mark(style: Style) -> char {
    match style {
        Style::Plain => ':',
        Style::SingleQuoted => '\'',
        Style::DoubleQuoted => '"',
        Style::Literal => '|',
        Style::Folded => '>',
    }
}

/// A line for a token: kind, positions, texts, style.
pub fn token(token: &Tok, text: &[u8]) -> String {
    let mut line = format!("{} {}-{}", token_kind(token.kind).name, token.start, token.end);
    for range in token.used_ranges() {
        line += &format!(" \"{}\"", quoted(&escaped(range.cut(text))));
    }
    if token.kind == SCALAR {
        line += &format!(" {}", style_name(token.style));
    }
    line
}

/// The name of a style's number.
pub fn style_name(number: u32) -> &'static str {
    match Style::of(number) {
        Some(Style::Plain) => "plain",
        Some(Style::SingleQuoted) => "single",
        Some(Style::DoubleQuoted) => "double",
        Some(Style::Literal) => "literal",
        Some(Style::Folded) => "folded",
        None => "?",
    }
}

fn quoted(escaped: &str) -> String {
    escaped.replace('"', "\\\"")
}

/// The escapes of the test suite's notation; other control characters as \xNN or \uNNNN, so that a line stays a line.
fn escaped(bytes: Option<&[u8]>) -> String {
    let text = String::from_utf8_lossy(bytes.unwrap_or_default());
    let mut out = String::with_capacity(text.len());
    for c in text.chars() {
        match c {
            '\\' => out.push_str("\\\\"),
            '\0' => out.push_str("\\0"),
            '\u{8}' => out.push_str("\\b"),
            '\n' => out.push_str("\\n"),
            '\r' => out.push_str("\\r"),
            '\t' => out.push_str("\\t"),
            c if c.is_control() => out.push_str(&format!("\\x{:02x}", u32::from(c))),
            // Some readers take these two for the end of a line.
            '\u{2028}' | '\u{2029}' => out.push_str(&format!("\\u{:04x}", u32::from(c))),
            c => out.push(c),
        }
    }
    out
}
