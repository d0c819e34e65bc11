//! Tokens with their types, and the list of records that they become.
use crate::style::Style;
use records::sizes::{put_words, TOKEN};
use records::{kinds, Range, Tok};

/// From where to where, in what the caller counts: bytes or characters. Copied into the events, never judged.
#[derive(Clone, Copy, Debug, Default, PartialEq, Eq, Hash)]
pub struct Span {
    pub start: u32,
    pub end: u32,
}

impl Span {
    pub const fn new(start: u32, end: u32) -> Span {
        Span { start, end }
    }
}

/// A token. Ranges are half-open ranges of bytes of the text.
#[derive(Clone, Copy, Debug, PartialEq, Eq, Hash)]
pub enum Token {
    StreamStart,
    StreamEnd,
    VersionDirective,
    TagDirective { handle: Range, prefix: Range },
    ReservedDirective,
    DocumentStart,
    DocumentEnd,
    ByteOrderMark,
    BlockSequenceStart,
    BlockMappingStart,
    BlockEnd,
    FlowSequenceStart,
    FlowSequenceEnd,
    FlowMappingStart,
    FlowMappingEnd,
    BlockEntry,
    FlowEntry,
    Key,
    Value,
    Alias { name: Range },
    Anchor { name: Range },
    Tag { handle: Range, suffix: Range },
    Scalar { value: Range, style: Style },
}

impl Token {
    /// The number of its kind.
    pub fn kind(self) -> u32 {
        match self {
            Token::StreamStart => kinds::STREAM_START,
            Token::StreamEnd => kinds::STREAM_END,
            Token::VersionDirective => kinds::VERSION_DIRECTIVE,
            Token::TagDirective { .. } => kinds::TAG_DIRECTIVE,
            Token::ReservedDirective => kinds::RESERVED_DIRECTIVE,
            Token::DocumentStart => kinds::DOCUMENT_START,
            Token::DocumentEnd => kinds::DOCUMENT_END,
            Token::ByteOrderMark => kinds::BYTE_ORDER_MARK,
            Token::BlockSequenceStart => kinds::BLOCK_SEQUENCE_START,
            Token::BlockMappingStart => kinds::BLOCK_MAPPING_START,
            Token::BlockEnd => kinds::BLOCK_END,
            Token::FlowSequenceStart => kinds::FLOW_SEQUENCE_START,
            Token::FlowSequenceEnd => kinds::FLOW_SEQUENCE_END,
            Token::FlowMappingStart => kinds::FLOW_MAPPING_START,
            Token::FlowMappingEnd => kinds::FLOW_MAPPING_END,
            Token::BlockEntry => kinds::BLOCK_ENTRY,
            Token::FlowEntry => kinds::FLOW_ENTRY,
            Token::Key => kinds::KEY,
            Token::Value => kinds::VALUE,
            Token::Alias { .. } => kinds::ALIAS,
            Token::Anchor { .. } => kinds::ANCHOR,
            Token::Tag { .. } => kinds::TAG,
            Token::Scalar { .. } => kinds::SCALAR,
        }
    }

    /// Its record; the fields that its kind does not use are 0.
    pub fn record(self, span: Span) -> Tok {
        let mut record = Tok::new(self.kind()).at(span.start, span.end);
        match self {
            Token::TagDirective { handle: a, prefix: b } | Token::Tag { handle: a, suffix: b } => {
                (record.a, record.b) = (a, b);
            }
            Token::Alias { name } | Token::Anchor { name } => record.a = name,
            Token::Scalar { value, style } => {
                (record.a, record.style) = (value, style.number());
            }
            _ => {}
        }
        record
    }
}

/// A list of token records, written one token after another.
#[derive(Clone, Debug, Default, PartialEq, Eq)]
pub struct TokenList {
    bytes: Vec<u8>,
}

impl TokenList {
    pub fn new() -> TokenList {
        TokenList::default()
    }

    /// Appends a token that stands at `start` to `end`.
    pub fn push(&mut self, token: Token, start: u32, end: u32) {
        let record = token.record(Span::new(start, end));
        put_words(&mut self.bytes, &record.numbers());
    }

    /// How many tokens it has; `rooms` of this is the memory to lend.
    pub fn len(&self) -> usize {
        self.bytes.len() / TOKEN
    }

    pub fn is_empty(&self) -> bool {
        self.bytes.is_empty()
    }

    /// The records.
    pub fn as_bytes(&self) -> &[u8] {
        &self.bytes
    }
}
