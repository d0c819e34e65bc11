//! YAML text to a token list of document 01.
use crate::input::str::StrInput;
use crate::scanner::{Marker, Scanner, Span, Token, TokenType};
use crate::tokens::{plain_kind, style_number};
use records::{kinds, Range, Tok};

/// What the scanner made of a text.
pub struct Scan {
    /// Positions are the scanner's: counted in characters.
    pub list: Vec<Tok>,
    /// The input, then the token texts that do not stand in it as they are.
    pub text: String,
    /// The scanner's own error and its place; the list stops there, so a run over it answers 14.
    pub error: Option<(String, u32)>,
}

pub fn scan(input: &str) -> Scan {
    scan_first(input, usize::MAX)
}

/// The first tokens only, at most so many: an input with millions then asks for no more memory than these.
pub fn scan_first(input: &str, most: usize) -> Scan {
    let mut scanner = Scanner::new(StrInput::new(input));
    let mut texts = Texts::new(input);
    let mut list = Vec::new();
    for token in scanner.by_ref().take(most) {
        list.push(texts.record(&token));
    }
    let error = scanner.get_error();
    let error = error.map(|e| (e.info().to_owned(), e.marker().index() as u32));
    Scan { list, text: texts.text, error }
}

struct Texts<'input> {
    input: &'input str,
    /// Where each character of the input begins, and where the last one ends.
    characters: Vec<usize>,
    text: String,
}

impl<'input> Texts<'input> {
    fn new(input: &'input str) -> Self {
        let begins = input.char_indices().map(|(at, _)| at);
        let characters = begins.chain([input.len()]).collect();
        Texts { input, characters, text: input.to_owned() }
    }

    fn record(&mut self, Token(span, token): &Token) -> Tok {
        let mut record = Tok::default().at(span.start.index() as u32, span.end.index() as u32);
        record.kind = match token {
            TokenType::StreamStart(_) => kinds::STREAM_START,
            TokenType::VersionDirective(..) => kinds::VERSION_DIRECTIVE,
            TokenType::ReservedDirective(..) => kinds::RESERVED_DIRECTIVE,
            TokenType::TagDirective(handle, prefix) => {
                (record.a, record.b) = (self.range(span, handle), self.range(span, prefix));
                kinds::TAG_DIRECTIVE
            }
            TokenType::Tag(handle, suffix) => {
                (record.a, record.b) = (self.range(span, handle), self.range(span, suffix));
                kinds::TAG
            }
            TokenType::Alias(name) => {
                record.a = self.range(span, name);
                kinds::ALIAS
            }
            TokenType::Anchor(name) => {
                record.a = self.range(span, name);
                kinds::ANCHOR
            }
            TokenType::Scalar(style, value) => {
                (record.a, record.style) = (self.range(span, value), style_number(*style));
                kinds::SCALAR
            }
            plain => plain_kind(plain).expect("every other token carries no text"),
        };
        record
    }

    /// scanner.rs hands over copies, so the text is looked for in the token's own span of the input; a text that does
    /// not stand there as it is (escapes, folded lines) is appended.
    fn range(&mut self, span: &Span, token: &str) -> Range {
        let edge = |marker: Marker| self.characters.get(marker.index()).copied();
        let own = edge(span.start).zip(edge(span.end));
        let own = own.and_then(|(from, to)| Some((from, self.input.get(from..to)?)));
        let found = own.and_then(|(from, slice)| Some(from + slice.find(token)?));
        let from = found.unwrap_or_else(|| {
            self.text.push_str(token);
            self.text.len() - token.len()
        });
        Range::new(from as u32, (from + token.len()) as u32)
    }
}
