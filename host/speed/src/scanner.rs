//! Stand-in for scanner.rs: the published types, and a `Scanner` that hands over the tokens of a list. It is made to be
//! fast: a token is read from its 32 bytes, and no text is copied more than once.
use crate::input::Input;
use records::kinds;
use records::sizes::TOKEN;
use scan::tokens::{plain_token, STYLES};
use std::marker::PhantomData;
use std::slice::ChunksExact;

pub use scan::scanner::{Marker, ScalarStyle, ScanError, Span, TEncoding, Token, TokenType};

#[derive(Clone, Debug)]
pub struct Scanner<'input, T> {
    input: T,
    text: &'static str,
    records: ChunksExact<'static, u8>,
    /// The end of the token last handed out.
    last: Option<u32>,
    ended: bool,
    life: PhantomData<&'input ()>,
}

/// What parser.rs calls.
impl<T: Input> Scanner<'_, T> {
    pub fn new(input: T) -> Self {
        let list = input.list();
        let records = list.tokens.chunks_exact(TOKEN);
        Scanner { input, text: list.text, records, last: None, ended: false, life: PhantomData }
    }

    /// A list has no error of its own.
    pub fn get_error(&self) -> Option<ScanError> {
        None
    }

    pub fn stream_started(&self) -> bool {
        self.last.is_some()
    }

    pub fn stream_ended(&self) -> bool {
        self.ended
    }

    pub fn mark(&self) -> Marker {
        marker(self.last.unwrap_or(0))
    }
}

impl<'input, T: Input> Scanner<'input, T> {
    fn token(&self, record: Record) -> TokenType<'input> {
        let text = |[from, to]: [u32; 2]| &self.text[from as usize..to as usize];
        let held = |range| self.input.hold(text(range));
        let [a, b] = [[3, 4], [5, 6]].map(|range| range.map(|i| record.word(i)));
        match record.word(0) {
            kinds::STREAM_START => TokenType::StreamStart(TEncoding::Utf8),
            kinds::VERSION_DIRECTIVE => TokenType::VersionDirective(1, 2),
            kinds::RESERVED_DIRECTIVE => TokenType::ReservedDirective(String::new(), Vec::new()),
            kinds::TAG_DIRECTIVE => TokenType::TagDirective(held(a), held(b)),
            kinds::TAG => TokenType::Tag(text(a).to_owned(), text(b).to_owned()),
            kinds::ALIAS => TokenType::Alias(held(a)),
            kinds::ANCHOR => TokenType::Anchor(held(a)),
            kinds::SCALAR => TokenType::Scalar(STYLES[record.word(7) as usize], held(a)),
            plain => plain_token(plain).expect("a kind of token"),
        }
    }
}

impl<'input, T: Input> Iterator for Scanner<'input, T> {
    type Item = Token<'input>;

    /// A call of its own, as in the published crate. It serves parser.rs: what looks at the next token is then small
    /// enough to be inlined.
    #[inline(never)]
    fn next(&mut self) -> Option<Token<'input>> {
        let record = Record(self.records.next()?.try_into().expect("the bytes of a token"));
        let [start, end] = [1, 2].map(|i| record.word(i));
        self.last = Some(end);
        self.ended |= record.word(0) == kinds::STREAM_END;
        Some(Token(Span::new(marker(start), marker(end)), self.token(record)))
    }
}

/// A token's bytes. Its length is part of its type, so that reading a number asks nothing.
#[derive(Clone, Copy)]
struct Record(&'static [u8; TOKEN]);

impl Record {
    fn word(self, i: usize) -> u32 {
        let at = 4 * i;
        u32::from_le_bytes([self.0[at], self.0[at + 1], self.0[at + 2], self.0[at + 3]])
    }
}

/// A position: the index alone is carried, lines and columns are no part of a record.
fn marker(index: u32) -> Marker {
    Marker::new(index as usize, 0, 0)
}
