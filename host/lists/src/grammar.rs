//! Lists that every setting accepts, drawn by a grammar of token lists.
use crate::list::List;
use crate::rng::Rng;
use crate::words::{any_handle, any_token, rng_word};
use crate::words::{LOCAL_HANDLES, NAMES, PLAIN_HANDLES, PREFIXES, SUFFIXES};
use records::kinds::*;
use records::{Range, Tok};

/// Draws a list of some `size` tokens; what is open at that size is closed.
pub fn grammar(rng: &mut Rng, size: usize) -> List {
    let mut writer =
        Writer { rng, list: List::default(), size, names: Vec::new(), handles: Vec::new() };
    writer.stream();
    let mut list = writer.list;
    list.lay(rng);
    list
}

/// Where a node stands.
#[derive(Clone, Copy, PartialEq)]
enum Place {
    Block,
    /// After Key or Value in a block mapping: a sequence without indent may stand there.
    Indentless,
    Flow,
}

/// The four kinds of content that hold others.
const COLLECTIONS: [fn(&mut Writer, Place); 4] = [
    |writer, _| writer.flow_sequence(),
    |writer, _| writer.flow_mapping(),
    |writer, place| match place {
        Place::Flow => writer.flow_sequence(),
        _ => writer.block_sequence(),
    },
    |writer, place| match place {
        Place::Flow => writer.flow_mapping(),
        _ => writer.block_mapping(),
    },
];

struct Writer<'r> {
    rng: &'r mut Rng,
    list: List,
    size: usize,
    /// Names and handles of this document.
    names: Vec<&'static [u8]>,
    handles: Vec<&'static [u8]>,
}

impl Writer<'_> {
    fn put(&mut self, kind: u32) {
        let token = any_token(self.rng, &mut self.list, kind);
        self.list.tokens.push(token);
    }

    fn put_pair(&mut self, kind: u32, a: &[u8], b: &[u8]) {
        let (a, b) = (self.list.word(self.rng, a), self.list.word(self.rng, b));
        self.list.tokens.push(Tok { a, b, ..Tok::new(kind) });
    }

    fn put_name(&mut self, kind: u32, name: &[u8]) {
        let a = self.list.word(self.rng, name);
        self.list.tokens.push(Tok { a, b: Range::default(), ..Tok::new(kind) });
    }

    fn some_of(&mut self, kinds: &[u32]) {
        while self.rng.one_in(6) {
            let kind = self.rng.pick(kinds);
            self.put(kind);
        }
    }

    fn full(&self) -> bool {
        self.list.tokens.len() >= self.size
    }

    fn coin(&mut self) -> bool {
        self.rng.one_in(2)
    }
}

/// Documents.
impl Writer<'_> {
    fn stream(&mut self) {
        self.put(STREAM_START);
        // Directives and implicit documents stand at the beginning or after a DocumentEnd.
        let mut ended = true;
        while !self.full() && !self.rng.one_in(6) {
            ended = self.document(ended);
        }
        if ended {
            self.some_of(&[DOCUMENT_END, BYTE_ORDER_MARK]);
        }
        self.put(STREAM_END);
    }

    /// One document, and whether a DocumentEnd closes it.
    fn document(&mut self, ended: bool) -> bool {
        self.names.clear();
        self.handles.clear();
        if ended {
            self.some_of(&[DOCUMENT_END, BYTE_ORDER_MARK]);
        }
        if ended && self.coin() {
            self.node(Place::Block);
        } else {
            self.explicit(ended);
        }
        self.some_of(&[BYTE_ORDER_MARK]);
        let end = self.coin();
        if end {
            self.put(DOCUMENT_END);
        }
        end
    }

    fn explicit(&mut self, ended: bool) {
        if ended && self.coin() {
            self.directives();
        }
        self.put(DOCUMENT_START);
        if !self.rng.one_in(5) {
            self.node(Place::Block);
        }
    }

    fn directives(&mut self) {
        let version = self.rng.below(4);
        for i in 0..self.rng.below(4) {
            if i == version {
                self.put(VERSION_DIRECTIVE);
            }
            let handle = any_handle(self.rng);
            if self.rng.one_in(4) || self.handles.contains(&handle) {
                self.put(RESERVED_DIRECTIVE);
            } else {
                self.handles.push(handle);
                let prefix = rng_word(self.rng, &PREFIXES);
                self.put_pair(TAG_DIRECTIVE, handle, prefix);
            }
        }
    }
}

/// Nodes.
impl Writer<'_> {
    fn node(&mut self, place: Place) {
        if !self.names.is_empty() && self.rng.one_in(6) {
            let name = self.rng.pick(&self.names);
            return self.put_name(ALIAS, name);
        }
        let properties = self.properties();
        match self.rng.below(8) {
            0 if properties => {}
            1 | 2 if place == Place::Indentless && !self.full() => self.entries(1),
            3..=6 if !self.full() => {
                let collection = self.rng.pick(&COLLECTIONS);
                collection(self, place);
            }
            _ => self.put(SCALAR),
        }
    }

    /// An anchor, a tag, both in either order, or none; whether there is one.
    fn properties(&mut self) -> bool {
        let choice = self.rng.below(10);
        let (anchor, tag) = (choice < 3, (2..5).contains(&choice));
        let tag_first = self.coin();
        if tag && tag_first {
            self.tag();
        }
        if anchor {
            let name = rng_word(self.rng, &NAMES);
            self.names.push(name);
            self.put_name(ANCHOR, name);
        }
        if tag && !tag_first {
            self.tag();
        }
        anchor || tag
    }

    fn tag(&mut self) {
        let declared = |handle: &&&str| self.handles.contains(&handle.as_bytes());
        let local: Vec<&'static str> = LOCAL_HANDLES.iter().filter(declared).copied().collect();
        let handle = match local.is_empty() || self.coin() {
            true => rng_word(self.rng, &PLAIN_HANDLES),
            false => rng_word(self.rng, &local),
        };
        let suffix = rng_word(self.rng, &SUFFIXES);
        self.put_pair(TAG, handle, suffix);
    }

    fn maybe_node(&mut self, place: Place) {
        if !self.rng.one_in(4) {
            self.node(place);
        }
    }
}

/// Collections.
impl Writer<'_> {
    fn block_sequence(&mut self) {
        self.put(BLOCK_SEQUENCE_START);
        self.entries(0);
        self.put(BLOCK_END);
    }

    fn entries(&mut self, least: usize) {
        for _ in 0..least + self.rng.below(4) {
            self.put(BLOCK_ENTRY);
            self.maybe_node(Place::Block);
        }
    }

    fn block_mapping(&mut self) {
        self.put(BLOCK_MAPPING_START);
        for _ in 0..self.rng.below(4) {
            self.pair(Place::Indentless, true);
        }
        self.put(BLOCK_END);
    }

    /// Key and Value, each perhaps missing, but not both.
    fn pair(&mut self, place: Place, empty_key: bool) {
        let shape = self.rng.below(6);
        if shape != 0 || !empty_key {
            self.put(KEY);
            match empty_key {
                true => self.maybe_node(place),
                false => self.node(place),
            }
        }
        if shape != 1 {
            self.put(VALUE);
            self.maybe_node(place);
        }
    }

    fn flow(&mut self, start: u32, end: u32, entry: fn(&mut Self)) {
        self.put(start);
        let count = self.rng.below(4);
        for i in 0..count {
            entry(self);
            if i + 1 < count || self.rng.one_in(4) {
                self.put(FLOW_ENTRY);
            }
        }
        self.put(end);
    }

    /// A single pair with an empty key is left to other classes: parser.rs takes the token after the Key.
    fn flow_sequence(&mut self) {
        self.flow(FLOW_SEQUENCE_START, FLOW_SEQUENCE_END, |writer| match writer.rng.below(4) {
            0 => writer.pair(Place::Flow, false),
            _ => writer.node(Place::Flow),
        });
    }

    fn flow_mapping(&mut self) {
        self.flow(FLOW_MAPPING_START, FLOW_MAPPING_END, |writer| match writer.rng.below(4) {
            0 => writer.node(Place::Flow),
            _ => writer.pair(Place::Flow, true),
        });
    }
}
