//! How bytes of the text become the strings that parser.rs wants.
use records::Tok;

/// The two ways. parser.rs only compares names for equality and looks for `!` at both ends of a handle of two bytes or
/// more, so what it answers over the one reading carries over to the other.
#[derive(Clone, Copy, PartialEq, Eq, Debug)]
pub enum Reading {
    /// The text is UTF-8 and no used range cuts a character: strings as they are.
    Direct,
    /// Each byte is the character U+0000 to U+00FF of the same value.
    Carried,
}

impl Reading {
    /// The direct one wherever the list is well-formed in the words of document 01.
    pub fn of(list: &[Tok], text: &[u8]) -> Reading {
        let Ok(text) = std::str::from_utf8(text) else { return Reading::Carried };
        let mut ranges = list.iter().flat_map(Tok::used_ranges);
        let whole = |at: u32| text.is_char_boundary(at as usize);
        match ranges.all(|range| whole(range.from) && whole(range.to)) {
            true => Reading::Direct,
            false => Reading::Carried,
        }
    }

    pub fn string(self, bytes: &[u8]) -> String {
        match self {
            Reading::Direct => std::str::from_utf8(bytes).expect("a well-formed list").to_owned(),
            Reading::Carried => bytes.iter().map(|byte| char::from(*byte)).collect(),
        }
    }

    /// Back to the bytes.
    pub fn bytes(self, string: &str) -> Vec<u8> {
        match self {
            Reading::Direct => string.as_bytes().to_vec(),
            Reading::Carried => {
                let byte = |c: char| u8::try_from(c).expect("a carried character");
                string.chars().map(byte).collect()
            }
        }
    }
}
