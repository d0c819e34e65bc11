//! Comparing two answers to one case. Tags are compared by their bytes where one side has them as strings only.
use crate::answer::{flag, Answer};
use crate::case::Case;
use crate::event::{decode_events, Ev, SIDE};
use crate::sizes::{CORE_PREFIX, EVENT};
use crate::token::Range;

/// The bytes of a tag's prefix and suffix; none if the record has no tag or makes no sense.
pub fn tag_bytes<'a>(event: &Ev, text: &'a [u8], side: &'a [u8]) -> Option<(&'a [u8], &'a [u8])> {
    match event.source {
        1 if event.prefix == Range::default() => Some((CORE_PREFIX, event.suffix.cut(text)?)),
        2 => Some((event.prefix.cut(text)?, event.suffix.cut(text)?)),
        SIDE => Some((event.prefix.cut(side)?, event.suffix.cut(side)?)),
        _ => None,
    }
}

/// The first difference of two answers to `case`, in words; none if they agree.
pub fn difference(case: &Case, left: &Answer, right: &Answer) -> Option<String> {
    if left.failed() || right.failed() {
        return Some(format!("the oracle failed: {} / {}", left.number, right.number));
    }
    let heads = |a: &Answer| {
        let flags = a.flags & flag::LOOKED_AT;
        let bytes = a.events.len() as u64;
        [a.returned, a.number, a.count, a.place, flags].map(u64::from).into_iter().chain([bytes])
    };
    let names = ["returned", "number", "count", "place", "flags", "event bytes"];
    for (name, (l, r)) in names.iter().zip(heads(left).zip(heads(right))) {
        if l != r {
            return Some(format!("{name}: {l} / {r}"));
        }
    }
    let pairs = decode_events(&left.events).into_iter().zip(decode_events(&right.events));
    for (i, (l, r)) in pairs.enumerate() {
        let found = event_difference(&case.text, (&l, &left.side), (&r, &right.side));
        if let Some(words) = found {
            return Some(format!("event {i}: {words}"));
        }
    }
    let tail = |a: &Answer| a.events[a.events.len() / EVENT * EVENT..].to_vec();
    (tail(left) != tail(right)).then(|| "bytes after the last whole event".to_owned())
}

/// The first difference of two events, each with its side bytes.
pub fn event_difference(text: &[u8], left: (&Ev, &[u8]), right: (&Ev, &[u8])) -> Option<String> {
    let (l, r) = (left.0.numbers(), right.0.numbers());
    let strings = [left, right].iter().any(|(event, _)| event.source == SIDE);
    let plain = if strings { Ev::UNTAGGED } else { l.len() };
    for i in 0..plain {
        if l[i] != r[i] {
            return Some(format!("{}: {} / {}", Ev::FIELDS[i], l[i], r[i]));
        }
    }
    if !strings {
        return None;
    }
    let tags = [left, right].map(|(event, side)| tag_bytes(event, text, side));
    let same = tags[0].is_some() && tags[0] == tags[1];
    (!same).then(|| format!("tag: {} / {}", show_tag(tags[0]), show_tag(tags[1])))
}

pub(crate) fn show_tag(tag: Option<(&[u8], &[u8])>) -> String {
    match tag {
        Some((p, s)) => format!("\"{}\" \"{}\"", p.escape_ascii(), s.escape_ascii()),
        None => "none".to_owned(),
    }
}
