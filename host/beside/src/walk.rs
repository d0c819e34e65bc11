//! The walk of `load`, written by hand from document 01 (Port order 7), by somebody who knew the definition in
//! `crates/rules/specs/Walk.antt`.
use records::{kinds::event, sizes::EVENT};

/// As many collections may be open.
pub const DEEPEST: usize = 1_000;

/// What the next event has to be.
#[derive(Clone, Copy, PartialEq, Eq)]
enum Next {
    StreamStart,
    DocumentOrEnd,
    Node,
    DocumentEnd,
    Nothing,
}

/// An open collection. A mapping is at a key or at the value of one.
#[derive(Clone, Copy, PartialEq, Eq)]
enum Open {
    Sequence,
    Key,
    Value,
}

struct Walker {
    next: Next,
    open: Vec<Open>,
}

/// The number, and the index of the event that it is about.
pub fn walk(events: &[u8]) -> (u32, u32) {
    if !events.chunks_exact(EVENT).remainder().is_empty() {
        return (20, 0);
    }
    let mut walker = Walker { next: Next::StreamStart, open: Vec::new() };
    for (i, record) in events.chunks(EVENT).enumerate() {
        let kind = u32::from_le_bytes(record[..4].try_into().expect("four bytes"));
        if let Err(number) = walker.take(kind) {
            return (number, i as u32);
        }
    }
    match walker.next {
        Next::Nothing => (0, 0),
        _ => (30, (events.len() / EVENT) as u32),
    }
}

impl Walker {
    fn take(&mut self, kind: u32) -> Result<(), u32> {
        self.next = match (self.next, kind) {
            (Next::StreamStart, event::STREAM_START) => Next::DocumentOrEnd,
            (Next::DocumentOrEnd, event::DOCUMENT_START) => Next::Node,
            (Next::DocumentOrEnd, event::STREAM_END) => Next::Nothing,
            (Next::DocumentEnd, event::DOCUMENT_END) => Next::DocumentOrEnd,
            (Next::Node, kind) => return self.inside(kind),
            _ => return Err(30),
        };
        Ok(())
    }

    /// An event of a document's node.
    fn inside(&mut self, kind: u32) -> Result<(), u32> {
        match (self.open.last(), kind) {
            (Some(Open::Sequence), event::SEQUENCE_END) | (Some(Open::Key), event::MAPPING_END) => {
                self.open.pop();
                self.node_done();
            }
            (_, event::ALIAS | event::SCALAR) => self.node_done(),
            (_, event::SEQUENCE_START) => self.begin(Open::Sequence)?,
            (_, event::MAPPING_START) => self.begin(Open::Key)?,
            _ => return Err(30),
        }
        Ok(())
    }

    fn begin(&mut self, open: Open) -> Result<(), u32> {
        if self.open.len() == DEEPEST {
            return Err(31);
        }
        self.open.push(open);
        Ok(())
    }

    fn node_done(&mut self) {
        match self.open.last_mut() {
            None => self.next = Next::DocumentEnd,
            Some(key @ Open::Key) => *key = Open::Value,
            Some(value @ Open::Value) => *value = Open::Key,
            Some(Open::Sequence) => {}
        }
    }
}

#[cfg(test)]
mod tests {
    use super::*;

    fn of(kinds: &[u32]) -> (u32, u32) {
        walk(&kinds.iter().flat_map(|kind| with_kind(*kind)).collect::<Vec<u8>>())
    }

    fn with_kind(kind: u32) -> [u8; EVENT] {
        let mut record = [7; EVENT];
        record[..4].copy_from_slice(&kind.to_le_bytes());
        record
    }

    /// Each written out from document 01.
    #[test]
    fn examples() {
        let deep = |n: usize| [vec![1, 3], vec![7; n], vec![8; n], vec![4, 2]].concat();
        for (kinds, said) in [
            (vec![], (30, 0)),
            (vec![1], (30, 1)),
            (vec![1, 2], (0, 0)),
            (vec![1, 2, 2], (30, 2)),
            (vec![1, 3, 6, 4, 2], (0, 0)),
            (vec![1, 3, 6, 6, 4, 2], (30, 3)),
            (vec![1, 3, 4, 2], (30, 2)),
            (vec![1, 3, 7, 9, 6, 6, 10, 8, 4, 2], (0, 0)),
            (vec![1, 3, 9, 6, 10, 4, 2], (30, 4)),
            (vec![1, 3, 9, 6, 6], (30, 5)),
            (vec![2], (30, 0)),
            (vec![1, 3, 0], (30, 2)),
            (deep(1_000), (0, 0)),
            (deep(1_001), (31, 1_002)),
        ] {
            assert_eq!(of(&kinds), said, "{:?}", &kinds[..kinds.len().min(12)]);
        }
        assert_eq!(walk(&[1; 47]), (20, 0));
        assert_eq!(walk(&[1; 49]), (20, 0));
    }
}
