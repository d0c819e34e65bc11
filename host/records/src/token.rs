//! Token records.
use crate::kinds::{self, Uses};
use crate::sizes::{put_words, words, TOKEN};

/// A half-open range of bytes.
#[derive(Clone, Copy, PartialEq, Eq, Debug, Default, Hash)]
pub struct Range {
    pub from: u32,
    pub to: u32,
}

impl Range {
    pub fn new(from: u32, to: u32) -> Range {
        Range { from, to }
    }

    /// The bytes of the range, if it lies inside.
    pub fn cut(self, bytes: &[u8]) -> Option<&[u8]> {
        bytes.get(self.from as usize..self.to as usize)
    }
}

/// A token record, each field as it stands.
#[derive(Clone, Copy, PartialEq, Eq, Debug, Default, Hash)]
pub struct Tok {
    pub kind: u32,
    pub start: u32,
    pub end: u32,
    pub a: Range,
    pub b: Range,
    pub style: u32,
}

impl Tok {
    pub fn new(kind: u32) -> Tok {
        Tok { kind, ..Tok::default() }
    }

    pub fn at(self, start: u32, end: u32) -> Tok {
        Tok { start, end, ..self }
    }

    pub fn numbers(&self) -> [u32; 8] {
        let (a, b) = (self.a, self.b);
        [self.kind, self.start, self.end, a.from, a.to, b.from, b.to, self.style]
    }

    pub fn read(record: &[u8]) -> Tok {
        let [kind, start, end, a, a_to, b, b_to, style] = words(record);
        Tok { kind, start, end, a: Range::new(a, a_to), b: Range::new(b, b_to), style }
    }

    /// The ranges that the kind uses, in the order of the record.
    pub fn used_ranges(&self) -> impl Iterator<Item = Range> {
        let count = match kinds::token_kind(self.kind).uses {
            Uses::Nothing => 0,
            Uses::Name | Uses::Value => 1,
            Uses::Pair => 2,
        };
        [self.a, self.b].into_iter().take(count)
    }
}

pub fn encode(list: &[Tok]) -> Vec<u8> {
    let mut bytes = Vec::with_capacity(list.len() * TOKEN);
    for token in list {
        put_words(&mut bytes, &token.numbers());
    }
    bytes
}

/// The whole records; bytes past the last one are left out.
pub fn decode(bytes: &[u8]) -> Vec<Tok> {
    bytes.chunks_exact(TOKEN).map(Tok::read).collect()
}
