//! Stand-in for scanner.rs: the published types, and a `Scanner` that replays the list its input holds.
use crate::input::Input;
use alloc::collections::BTreeMap;
use records::{kinds, Range, Rooms, Tok};
use scan::tokens::{plain_token, STYLES};
use std::borrow::Cow;
use std::marker::PhantomData;

pub use scan::scanner::{Marker, ScalarStyle, ScanError, Span, TEncoding, Token, TokenType};

/// What the noted copy of parser.rs was seen to want.
#[derive(Clone, Copy, Debug)]
pub struct Notes {
    /// The most places wanted at once; events are not noted.
    pub need: Rooms,
    /// The number of the first act for which a room is short.
    pub short: Option<u32>,
}

#[derive(Clone, Debug)]
pub struct Scanner<'input, T> {
    input: T,
    next: usize,
    ended: bool,
    notes: Notes,
    life: PhantomData<&'input ()>,
}

/// What parser.rs calls.
impl<T: Input> Scanner<'_, T> {
    pub fn new(input: T) -> Self {
        let need = Rooms::from_counts([0; 4]);
        Scanner {
            input,
            next: 0,
            ended: false,
            notes: Notes { need, short: None },
            life: PhantomData,
        }
    }

    /// A list has no error of its own.
    pub fn get_error(&self) -> Option<ScanError> {
        None
    }

    /// As in scanner.rs: not before the first token was handed out.
    pub fn stream_started(&self) -> bool {
        self.next > 0
    }

    /// As in scanner.rs: not before StreamEnd was handed out.
    pub fn stream_ended(&self) -> bool {
        self.ended
    }

    /// The end of the token last handed out, 0 if none: the place of 14.
    pub fn mark(&self) -> Marker {
        let last = self.next.checked_sub(1).map(|i| self.input.list()[i].end);
        marker(last.unwrap_or(0))
    }
}

/// What the noted copy calls besides.
impl<T: Input> Scanner<'_, T> {
    pub fn notes(&self) -> Notes {
        self.notes
    }

    /// A state is about to be pushed onto `open` others.
    pub fn note_state(&mut self, open: usize) {
        self.notes.need.states = self.notes.need.states.max(open + 1);
        self.want(23, open + 1, self.input.rooms().states);
    }

    /// A name is about to be put into the table.
    pub fn note_anchor<N: Ord>(&mut self, anchors: &BTreeMap<N, usize>, name: &N) {
        let places = anchors.len() + usize::from(!anchors.contains_key(name));
        self.notes.need.anchors = self.notes.need.anchors.max(places);
        self.want(24, places, self.input.rooms().anchors);
    }

    /// A directive was read; `own` are the handles of this document so far.
    pub fn note_handles<P>(&mut self, kept: &BTreeMap<String, P>, own: &BTreeMap<String, P>) {
        let new = match kept.is_empty() {
            true => own.len(),
            false => own.keys().filter(|handle| !kept.contains_key(*handle)).count(),
        };
        let places = kept.len() + new;
        self.notes.need.handles = self.notes.need.handles.max(places);
        self.want(25, places, self.input.rooms().handles);
    }

    fn want(&mut self, number: u32, places: usize, room: usize) {
        if places > room {
            self.notes.short.get_or_insert(number);
        }
    }
}

impl<'input, T: Input> Scanner<'input, T> {
    fn token(&self, record: &Tok) -> TokenType<'input> {
        let text = |range: Range| self.input.string(range);
        let (a, b) = (record.a, record.b);
        match record.kind {
            kinds::STREAM_START => TokenType::StreamStart(TEncoding::Utf8),
            kinds::VERSION_DIRECTIVE => TokenType::VersionDirective(1, 2),
            kinds::RESERVED_DIRECTIVE => TokenType::ReservedDirective(String::new(), Vec::new()),
            kinds::TAG_DIRECTIVE => TokenType::TagDirective(text(a).into(), text(b).into()),
            kinds::TAG => TokenType::Tag(text(a), text(b)),
            kinds::ALIAS => TokenType::Alias(text(a).into()),
            kinds::ANCHOR => TokenType::Anchor(text(a).into()),
            kinds::SCALAR => TokenType::Scalar(STYLES[record.style as usize], ticket(a)),
            plain => plain_token(plain).expect("the first checks passed"),
        }
    }
}

impl<'input, T: Input> Iterator for Scanner<'input, T> {
    type Item = Token<'input>;

    fn next(&mut self) -> Option<Token<'input>> {
        let record = *self.input.list().get(self.next)?;
        self.next += 1;
        self.ended |= record.kind == kinds::STREAM_END;
        let span = Span::new(marker(record.start), marker(record.end));
        Some(Token(span, self.token(&record)))
    }
}

/// A position: the index alone is carried, lines and columns are no part of a record.
fn marker(index: u32) -> Marker {
    Marker::new(index as usize, 0, 0)
}

/// parser.rs only moves a Scalar's value, so the value that it is given is the range itself, written out: the event
/// then tells which range it holds, and the empty scalars that parser.rs makes are the ones with no range.
fn ticket(range: Range) -> Cow<'static, str> {
    format!("{}..{}", range.from, range.to).into()
}

/// The range that a value names.
pub fn range_of(value: &str) -> Range {
    let Some((from, to)) = value.split_once("..") else {
        assert!(value.is_empty(), "a value that the feeder did not give: {value}");
        return Range::default();
    };
    let number = |digits: &str| digits.parse().expect("a number that the feeder wrote");
    Range::new(number(from), number(to))
}
