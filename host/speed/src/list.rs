//! A token list with its text, as both sides take it.
use records::sizes::TOKEN;
use records::{encode, read_frame, Case, Frame, Tok};
use std::io::{self, Read};

/// It lives as long as the program, so that a feeder may lend out pieces of the text: parser.rs asks for tokens whose
/// life has nothing to do with that of its input.
#[derive(Clone, Copy, Debug)]
pub struct List {
    pub tokens: &'static [u8],
    pub text: &'static str,
}

impl List {
    pub const EMPTY: List = List { tokens: &[], text: "" };

    pub fn new(tokens: &[Tok], text: String) -> List {
        List { tokens: encode(tokens).leak(), text: text.leak() }
    }

    /// The number of tokens.
    pub fn count(self) -> usize {
        self.tokens.len() / TOKEN
    }

    /// For a program that is counted: the list is made once, outside of it.
    pub fn frame(self) -> Vec<u8> {
        let (tokens, text) = (self.tokens.to_vec(), self.text.as_bytes().to_vec());
        let mut bytes = Vec::new();
        Case { tokens, text, ..Case::default() }.put(&mut bytes);
        bytes
    }

    /// Back from a frame.
    ///
    /// # Errors
    /// Where the input holds no list.
    pub fn read(input: &mut impl Read) -> io::Result<List> {
        let Some(Frame::Case(case)) = read_frame(input)? else {
            return Err(io::Error::other("a list was expected"));
        };
        let text = String::from_utf8(case.text).map_err(io::Error::other)?;
        Ok(List { tokens: case.tokens.leak(), text: text.leak() })
    }
}
