//! Events as JSON, one object a line.
use super::notation::style_name;
use super::places::Spot;
use saphyr_events::{Event, EventKind, Node};

/// The object of an event; its spots where they are asked for.
pub fn event(event: &Event, text: &[u8], spots: Option<[Spot; 2]>) -> String {
    let mut fields = vec![format!("\"event\":\"{}\"", name(&event.kind))];
    match &event.kind {
        EventKind::DocumentStart { explicit } => fields.push(format!("\"explicit\":{explicit}")),
        EventKind::Alias { id } => fields.push(format!("\"anchor\":{id}")),
        EventKind::Scalar { node, style, .. } => {
            fields.extend(properties(node, text));
            fields.push(format!("\"style\":\"{}\"", style_name(style.number())));
            fields.push(format!("\"value\":{}", string(event.value_in(text))));
        }
        EventKind::SequenceStart(node) | EventKind::MappingStart(node) => {
            fields.extend(properties(node, text));
        }
        _ => {}
    }
    for (name, spot) in ["start", "end"].iter().zip(spots.into_iter().flatten()) {
        let Spot { line, column } = spot;
        fields.push(format!("\"{name}\":{{\"line\":{line},\"column\":{column}}}"));
    }
    format!("{{{}}}", fields.join(","))
}

fn name(kind: &EventKind) -> &'static str {
    match kind {
        EventKind::StreamStart => "StreamStart",
        EventKind::StreamEnd => "StreamEnd",
        EventKind::DocumentStart { .. } => "DocumentStart",
        EventKind::DocumentEnd => "DocumentEnd",
        EventKind::Alias { .. } => "Alias",
        EventKind::Scalar { .. } => "Scalar",
        EventKind::SequenceStart(_) => "SequenceStart",
        EventKind::SequenceEnd => "SequenceEnd",
        EventKind::MappingStart(_) => "MappingStart",
        EventKind::MappingEnd => "MappingEnd",
    }
}

fn properties(node: &Node, text: &[u8]) -> impl Iterator<Item = String> {
    let anchor = node.anchor.map(|id| format!("\"anchor\":{id}"));
    let tag = node.tag.map(|tag| format!("\"tag\":{}", string(tag.whole_in(text).as_deref())));
    anchor.into_iter().chain(tag)
}

/// A JSON string.
fn string(bytes: Option<&[u8]>) -> String {
    let text = String::from_utf8_lossy(bytes.unwrap_or_default());
    let mut out = String::with_capacity(text.len() + 2);
    out.push('"');
    for c in text.chars() {
        match c {
            '"' => out.push_str("\\\""),
            '\\' => out.push_str("\\\\"),
            '\n' => out.push_str("\\n"),
            '\r' => out.push_str("\\r"),
            '\t' => out.push_str("\\t"),
            // The last two are allowed, but some readers take them for the end of a line.
            c if c.is_control() || matches!(c, '\u{2028}' | '\u{2029}') => {
                out.push_str(&format!("\\u{:04x}", u32::from(c)));
            }
            c => out.push(c),
        }
    }
    out.push('"');
    out
}
