//! The productions of YAML 1.2.2, read over tokens, beside the Rust: every short list over four alphabets. Where the two
//! differ, docs/DIFFERENCES.md has the list's class under 1 to 6 or 24, and each of these comes up.
//!
//! Over tokens a Key stands before every key, explicit or not, but for an empty one; the rest is as the productions have it.
use lists::notation;
use oracle::rust_run;
use records::kinds::*;
use records::{Ev, Settings};
use std::collections::BTreeMap;

/// An event: its kind, whether it has an anchor, an id or `---`, and whether its value is empty.
type Given = (u32, bool, bool);

/// Where a node stands.
#[derive(Clone, Copy, PartialEq)]
enum Place {
    Block,
    /// In a block mapping: a sequence may stand there without indentation (`seq-space` of 8.2.3).
    Pair,
    Flow,
}

struct Reader<'l> {
    tokens: &'l [u32],
    at: usize,
    events: Vec<Given>,
    /// Whether this document has an anchor; the alphabets have one name.
    named: bool,
}

impl Reader<'_> {
    fn next(&self) -> u32 {
        self.tokens.get(self.at).copied().unwrap_or(0)
    }

    fn take(&mut self, kind: u32) -> bool {
        let found = self.next() == kind;
        self.at += usize::from(found);
        found
    }

    fn give(&mut self, kind: u32, marked: bool) {
        self.events.push((kind, marked, true));
    }

    /// 9.2: `l-yaml-stream`. None where the productions have no such list.
    fn stream(&mut self) -> Option<()> {
        self.take(STREAM_START).then_some(())?;
        self.give(event::STREAM_START, false);
        let mut ended = true;
        loop {
            while ended && (self.take(BYTE_ORDER_MARK) || self.take(DOCUMENT_END)) {}
            if self.take(STREAM_END) {
                self.give(event::STREAM_END, false);
                return Some(());
            }
            self.document(ended)?;
            while self.take(BYTE_ORDER_MARK) {}
            ended = self.take(DOCUMENT_END);
        }
    }

    /// 9.1: directives and bare documents stand at the beginning or behind `...`.
    fn document(&mut self, ended: bool) -> Option<()> {
        let directives = ended && self.directives()?;
        let explicit = self.take(DOCUMENT_START);
        self.named = false;
        self.give(event::DOCUMENT_START, explicit);
        match explicit {
            true => self.maybe(Place::Block)?,
            false if ended && !directives => self.node(Place::Block)?,
            false => return None,
        }
        self.give(event::DOCUMENT_END, false);
        Some(())
    }

    /// 6.8: one `%YAML`, and one `%TAG` of a handle; the alphabets have one handle.
    fn directives(&mut self) -> Option<bool> {
        let mut seen = [0; 3];
        while (VERSION_DIRECTIVE..=RESERVED_DIRECTIVE).contains(&self.next()) {
            seen[(self.next() - VERSION_DIRECTIVE) as usize] += 1;
            self.at += 1;
        }
        (seen[0] < 2 && seen[1] < 2).then_some(seen != [0; 3])
    }
}

/// Nodes.
impl Reader<'_> {
    /// A node, or nothing, which is an empty one (`e-node`).
    fn maybe(&mut self, place: Place) -> Option<()> {
        let begins = match self.next() {
            ALIAS..=SCALAR | FLOW_SEQUENCE_START | FLOW_MAPPING_START => true,
            BLOCK_SEQUENCE_START | BLOCK_MAPPING_START => place != Place::Flow,
            BLOCK_ENTRY => place == Place::Pair,
            _ => false,
        };
        match begins {
            true => self.node(place),
            false => {
                self.give(event::SCALAR, false);
                Some(())
            }
        }
    }

    fn node(&mut self, place: Place) -> Option<()> {
        if self.take(ALIAS) {
            self.give(event::ALIAS, true);
            return self.named.then_some(());
        }
        let first = self.at;
        let tagged = self.take(TAG);
        let anchored = self.take(ANCHOR);
        let _ = !tagged && self.take(TAG);
        self.named |= anchored;
        match self.next() {
            SCALAR => {
                self.at += 1;
                self.events.push((event::SCALAR, anchored, false));
            }
            FLOW_SEQUENCE_START => self.flow(FLOW_SEQUENCE_END, anchored)?,
            FLOW_MAPPING_START => self.flow(FLOW_MAPPING_END, anchored)?,
            BLOCK_SEQUENCE_START if place != Place::Flow => self.sequence(true, anchored)?,
            BLOCK_ENTRY if place == Place::Pair => self.sequence(false, anchored)?,
            BLOCK_MAPPING_START if place != Place::Flow => self.mapping(anchored)?,
            _ if self.at > first => self.give(event::SCALAR, anchored),
            _ => return None,
        }
        Some(())
    }

    /// 8.2.1: one entry at least.
    fn sequence(&mut self, indented: bool, anchored: bool) -> Option<()> {
        self.at += usize::from(indented);
        self.give(event::SEQUENCE_START, anchored);
        let first = self.at;
        while self.take(BLOCK_ENTRY) {
            self.maybe(Place::Block)?;
        }
        self.give(event::SEQUENCE_END, false);
        (self.at > first && (!indented || self.take(BLOCK_END))).then_some(())
    }

    /// 8.2.2: one pair at least.
    fn mapping(&mut self, anchored: bool) -> Option<()> {
        self.at += 1;
        self.give(event::MAPPING_START, anchored);
        let first = self.at;
        while matches!(self.next(), KEY | VALUE) {
            self.pair(Place::Pair)?;
        }
        self.give(event::MAPPING_END, false);
        (self.at > first && self.take(BLOCK_END)).then_some(())
    }

    /// A key and a value, each perhaps missing, not both.
    fn pair(&mut self, place: Place) -> Option<()> {
        match self.take(KEY) {
            true => self.maybe(place)?,
            false => self.give(event::SCALAR, false),
        }
        match self.take(VALUE) {
            true => self.maybe(place)?,
            false => self.give(event::SCALAR, false),
        }
        Some(())
    }

    /// 7.4: entries between commas, perhaps one behind the last.
    fn flow(&mut self, end: u32, anchored: bool) -> Option<()> {
        let sequence = end == FLOW_SEQUENCE_END;
        self.at += 1;
        self.give(if sequence { event::SEQUENCE_START } else { event::MAPPING_START }, anchored);
        while self.next() != end {
            self.entry(sequence)?;
            if !self.take(FLOW_ENTRY) {
                break;
            }
        }
        self.give(if sequence { event::SEQUENCE_END } else { event::MAPPING_END }, false);
        self.take(end).then_some(())
    }

    /// In a sequence a pair is a mapping of its own, in a mapping a node alone is a key (7.4.2).
    fn entry(&mut self, sequence: bool) -> Option<()> {
        let pair = matches!(self.next(), KEY | VALUE);
        if sequence && pair {
            self.give(event::MAPPING_START, false);
        }
        match pair {
            true => self.pair(Place::Flow)?,
            false => self.node(Place::Flow)?,
        }
        match (sequence, pair) {
            (true, true) => self.give(event::MAPPING_END, false),
            (false, false) => self.give(event::SCALAR, false),
            _ => {}
        }
        Some(())
    }
}

fn read(tokens: &[u32]) -> Option<Vec<Given>> {
    let mut reader = Reader { tokens, at: 0, events: Vec::new(), named: false };
    reader.stream()?;
    Some(reader.events)
}

fn given(event: &Ev) -> Given {
    (event.kind, event.number != 0, event.value.from == event.value.to)
}

/// The number on the page under which a list that differs stands, by the tokens that make it so.
fn class(tokens: &[u32], accepted: bool, allowed: bool) -> Option<u32> {
    let mut open = Vec::new();
    let mut found = None;
    for pair in tokens.windows(2) {
        match pair[0] {
            FLOW_SEQUENCE_START | FLOW_MAPPING_START => open.push(pair[0]),
            FLOW_SEQUENCE_END | FLOW_MAPPING_END => drop(open.pop()),
            BLOCK_SEQUENCE_START | BLOCK_MAPPING_START if pair[1] == BLOCK_END => found = Some(6),
            _ => {}
        }
        let inside = open.last() == Some(&FLOW_SEQUENCE_START);
        let taken = match (pair[0], pair[1]) {
            (KEY, FLOW_SEQUENCE_END) => Some(1),
            (KEY, VALUE) => Some(2),
            (KEY, FLOW_ENTRY) => Some(3),
            (FLOW_SEQUENCE_START | FLOW_ENTRY, VALUE) => Some(4),
            _ => None,
        };
        found = found.or(taken.filter(|_| inside));
    }
    match (found?, accepted, allowed) {
        (1..=3, true, true) => Some(24),
        (1..=3, true, false) => Some(5),
        (number, ..) => Some(number),
    }
}

/// The lists that differ, by number, of all words of up to `most` letters.
fn differing(letters: &str, most: usize, counts: &mut BTreeMap<u32, usize>) {
    let alphabet: Vec<&str> = letters.split_whitespace().collect();
    let mut words = vec![String::new()];
    for _ in 0..=most {
        words.iter().for_each(|word| differ(word, counts));
        let longer =
            |word: &String| alphabet.iter().map(|letter| format!("{word} {letter}")).collect();
        words = words.iter().flat_map(|word| -> Vec<String> { longer(word) }).collect();
    }
}

fn differ(word: &str, counts: &mut BTreeMap<u32, usize>) {
    let list = notation::list("", &format!("SS {word} SE"));
    let tokens: Vec<u32> = list.tokens.iter().map(|token| token.kind).collect();
    let run = rust_run(&list.tokens, &list.text, Settings { keep: false, forget: true });
    let ours = (run.number == 0).then(|| run.events.iter().map(given).collect::<Vec<Given>>());
    let theirs = read(&tokens);
    if ours != theirs {
        let class = class(&tokens, ours.is_some(), theirs.is_some());
        let number = class.unwrap_or_else(|| panic!("on no list: SS {word} SE, {}", run.number));
        *counts.entry(number).or_default() += 1;
    }
}

#[test]
fn every_difference_is_on_the_page() {
    let mut counts = BTreeMap::new();
    differing("FSS FSE FMS FME FEN KEY VAL SCA(a)", 6, &mut counts);
    differing("FSS FSE KEY VAL FEN ANC(x) ALI(x) TAG(!,t) SCA(a)", 5, &mut counts);
    differing("BSS BMS BE ENT KEY VAL SCA(a)", 6, &mut counts);
    differing("BSS BMS BE ENT KEY VAL FSS FSE ANC(x)", 5, &mut counts);
    differing("VD TD(!e!,p) RD DS DE BOM SCA(a) ANC(x) ALI(x)", 5, &mut counts);
    assert_eq!(counts.keys().copied().collect::<Vec<u32>>(), [1, 2, 3, 4, 5, 6, 24]);
}
