//! Event records.
use crate::sizes::{put_words, words, EVENT};
use crate::token::Range;

/// Tag source of the oracle only: prefix and suffix are ranges of the answer's side bytes.
pub const SIDE: u32 = 0xFFFF_0002;

/// An event record, each field as it stands.
#[derive(Clone, Copy, PartialEq, Eq, Debug, Default)]
pub struct Ev {
    pub kind: u32,
    pub start: u32,
    pub end: u32,
    pub number: u32,
    pub style: u32,
    pub value: Range,
    pub source: u32,
    pub prefix: Range,
    pub suffix: Range,
}

impl Ev {
    /// Names of the numbers, in record order.
    pub const FIELDS: [&'static str; 12] = [
        "kind",
        "start",
        "end",
        "number",
        "style",
        "value-from",
        "value-to",
        "tag source",
        "prefix-from",
        "prefix-to",
        "suffix-from",
        "suffix-to",
    ];
    /// How many numbers stand before the tag source.
    pub const UNTAGGED: usize = 7;

    pub fn numbers(&self) -> [u32; 12] {
        let (value, prefix, suffix) = (self.value, self.prefix, self.suffix);
        [
            self.kind,
            self.start,
            self.end,
            self.number,
            self.style,
            value.from,
            value.to,
            self.source,
            prefix.from,
            prefix.to,
            suffix.from,
            suffix.to,
        ]
    }

    pub fn read(record: &[u8]) -> Ev {
        let [kind, start, end, number, style, v0, v1, source, p0, p1, s0, s1] = words(record);
        Ev {
            kind,
            start,
            end,
            number,
            style,
            value: Range::new(v0, v1),
            source,
            prefix: Range::new(p0, p1),
            suffix: Range::new(s0, s1),
        }
    }
}

pub fn encode_events(list: &[Ev]) -> Vec<u8> {
    let mut bytes = Vec::with_capacity(list.len() * EVENT);
    for event in list {
        put_words(&mut bytes, &event.numbers());
    }
    bytes
}

/// The whole records; bytes past the last one are left out.
pub fn decode_events(bytes: &[u8]) -> Vec<Ev> {
    bytes.chunks_exact(EVENT).map(Ev::read).collect()
}
