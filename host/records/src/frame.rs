//! Cases and answers as bytes, one frame after another with nothing between.
use crate::answer::Answer;
use crate::case::Case;
use crate::sizes::{length, put_words, words};
use std::io::{self, Read};

/// A frame read from a file.
#[derive(Clone, Debug, PartialEq, Eq)]
pub enum Frame {
    Case(Case),
    Answer(Answer),
}

const CASE: &[u8; 4] = b"CASE";
const ANSW: &[u8; 4] = b"ANSW";

impl Case {
    /// Appends the case as a frame.
    pub fn put(&self, bytes: &mut Vec<u8>) {
        bytes.extend_from_slice(CASE);
        let [events, states, anchors, handles] = self.lengths();
        let (tokens, text) = (length(self.tokens.len()), length(self.text.len()));
        let lent = [events, states, anchors, handles, self.answer_len, self.fill];
        put_words(bytes, &[self.keep, self.forget]);
        put_words(bytes, &lent);
        put_words(bytes, &[tokens, text]);
        bytes.extend_from_slice(&self.tokens);
        bytes.extend_from_slice(&self.text);
    }

    fn read_body(input: &mut impl Read) -> io::Result<Case> {
        let [keep, forget, events, states, anchors, handles, answer_len, fill, tokens, text] =
            read_words(input)?;
        let tokens = read_bytes(input, tokens)?;
        let text = read_bytes(input, text)?;
        let case = Case { keep, forget, answer_len, fill, tokens, text, ..Case::default() };
        Ok(case.with_lengths([events, states, anchors, handles]))
    }
}

impl Answer {
    /// Appends the answer as a frame.
    pub fn put(&self, bytes: &mut Vec<u8>) {
        bytes.extend_from_slice(ANSW);
        put_words(bytes, &[self.returned, self.number, self.count, self.place, self.flags]);
        put_words(bytes, &[length(self.events.len()), length(self.side.len())]);
        bytes.extend_from_slice(&self.events);
        bytes.extend_from_slice(&self.side);
    }

    fn read_body(input: &mut impl Read) -> io::Result<Answer> {
        let [returned, number, count, place, flags, events, side] = read_words(input)?;
        let events = read_bytes(input, events)?;
        let side = read_bytes(input, side)?;
        Ok(Answer { returned, number, count, place, flags, events, side })
    }
}

/// The next frame; none at the end of the input.
pub fn read_frame(input: &mut impl Read) -> io::Result<Option<Frame>> {
    let mut mark = Vec::new();
    input.take(4).read_to_end(&mut mark)?;
    if mark.is_empty() {
        Ok(None)
    } else if mark == CASE {
        Case::read_body(input).map(|case| Some(Frame::Case(case)))
    } else if mark == ANSW {
        Answer::read_body(input).map(|answer| Some(Frame::Answer(answer)))
    } else {
        let found = mark.escape_ascii();
        let message = format!("CASE or ANSW expected, found \"{found}\"");
        Err(io::Error::new(io::ErrorKind::InvalidData, message))
    }
}

fn read_words<const N: usize>(input: &mut impl Read) -> io::Result<[u32; N]> {
    let bytes = read_bytes(input, length(4 * N))?;
    Ok(words(&bytes))
}

/// Grows with what is there, so that a wrong length in a damaged file asks for no memory.
fn read_bytes(input: &mut impl Read, count: u32) -> io::Result<Vec<u8>> {
    let mut bytes = Vec::new();
    input.take(u64::from(count)).read_to_end(&mut bytes)?;
    if bytes.len() == count as usize {
        Ok(bytes)
    } else {
        let message = format!("{count} bytes expected, {} found", bytes.len());
        Err(io::Error::new(io::ErrorKind::UnexpectedEof, message))
    }
}
