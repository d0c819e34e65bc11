//! Which lists are written as text: all words over small alphabets, and a sample of longer lists.
use crate::grammar::grammar;
use crate::list::List;
use crate::mutated::mutate;
use crate::notation;
use crate::rng::Rng;
use records::kinds::*;
use records::{Range, Tok};
use std::io;

/// Words over an alphabet, each between the tokens of a frame.
pub struct Plan {
    pub name: &'static str,
    frames: &'static [[&'static str; 2]],
    letters: &'static str,
    most: usize,
}

/// Scalars are double-quoted: a plain one may take in what stands behind it, as in `x ]` outside of brackets.
pub const PLANS: [Plan; 6] = [
    Plan {
        name: "flow",
        frames: &[["FSS", "FSE"], ["FMS", "FME"]],
        letters: "FSS FSE FMS FME FEN KEY VAL SCA(a):2",
        most: 6,
    },
    Plan {
        name: "flow, names",
        frames: &[["FSS", "FSE"], ["FMS", "FME"]],
        letters: "FSS FSE FEN KEY VAL SCA(a):2 ANC(x) ALI(x) TAG(!,t)",
        most: 5,
    },
    Plan {
        name: "block",
        frames: &[["BSS", "BE"], ["BMS", "BE"]],
        letters: "BSS BMS BE ENT KEY VAL SCA(a):2",
        most: 7,
    },
    Plan {
        name: "block, names",
        frames: &[["BSS", "BE"], ["BMS", "BE"], ["ANC(y) BMS", "BE"]],
        letters: "BSS BMS BE ENT KEY VAL SCA(a):2 ANC(x) ALI(x) FSS FSE",
        most: 5,
    },
    Plan {
        name: "documents",
        frames: &[["", ""]],
        letters: "VD TD(!e!,p) RD DS DE BOM SCA(a):2 ANC(x) ALI(x)",
        most: 5,
    },
    Plan {
        name: "tags",
        frames: &[["", ""], ["DS", ""]],
        letters: "DS DE SCA(a):2 ANC(x) TAG(!!,t) TAG(!,t) TAG(!e!,t) TAG(,t) TAG(,!) TD(!!,p) TD(!,p) TD(!e!,p)",
        most: 4,
    },
];

impl Plan {
    /// Calls `each` with every list of the plan, shortest first in each frame.
    pub fn lists(&self, mut each: impl FnMut(&List) -> io::Result<()>) -> io::Result<()> {
        let alphabet = notation::list("", self.letters);
        for [before, behind] in self.frames {
            let around = [format!("SS {before}"), format!("{behind} SE")];
            for length in 0..=self.most {
                let mut word = Some(vec![0; length]);
                while let Some(letters) = word {
                    each(&framed(&alphabet, &around, &letters))?;
                    word = next(letters, alphabet.tokens.len());
                }
            }
        }
        Ok(())
    }
}

/// The next word of the same length, as the next number of so many digits.
fn next(mut word: Vec<usize>, letters: usize) -> Option<Vec<usize>> {
    let last = word.iter().rposition(|letter| letter + 1 < letters)?;
    word[last] += 1;
    word[last + 1..].fill(0);
    Some(word)
}

fn framed(alphabet: &List, [head, tail]: &[String; 2], word: &[usize]) -> List {
    let mut list = notation::list("", head);
    list.tokens.extend(word.iter().map(|letter| moved(alphabet.tokens[*letter], list.text.len())));
    list.text.extend_from_slice(&alphabet.text);
    // What stands behind a word has no text of its own.
    list.tokens.extend(notation::list("", tail).tokens);
    list.lay_in_steps();
    list
}

fn moved(token: Tok, by: usize) -> Tok {
    let on = |range: Range| Range::new(range.from + by as u32, range.to + by as u32);
    Tok { a: on(token.a), b: on(token.b), ..token }
}

/// Whether each bracket and each block that is opened is closed by its own end.
pub fn is_closed(list: &List) -> bool {
    let mut open = Vec::new();
    for token in &list.tokens {
        match token.kind {
            FLOW_SEQUENCE_START => open.push(FLOW_SEQUENCE_END),
            FLOW_MAPPING_START => open.push(FLOW_MAPPING_END),
            BLOCK_SEQUENCE_START | BLOCK_MAPPING_START => open.push(BLOCK_END),
            FLOW_SEQUENCE_END | FLOW_MAPPING_END | BLOCK_END if open.pop() != Some(token.kind) => {
                return false;
            }
            _ => {}
        }
    }
    open.is_empty()
}

/// A longer list of the grammar, every other one edited, of tokens that can be written: no literal or folded scalar in
/// flow, and no byte order mark, which libfyaml knows at the beginning only.
pub fn drawn(index: u64) -> List {
    let mut rng = Rng::for_case(0, index);
    let size = 2 + rng.below(24);
    let mut list = grammar(&mut rng, size);
    if index % 2 == 1 {
        mutate(&mut rng, &mut list);
    }
    let mut plain = List::default();
    let mut depth = 0;
    for token in list.tokens.iter().filter(|token| token.kind != BYTE_ORDER_MARK) {
        depth += match token.kind {
            FLOW_SEQUENCE_START | FLOW_MAPPING_START => 1,
            FLOW_SEQUENCE_END | FLOW_MAPPING_END => -1,
            _ => 0,
        };
        let [a, b] = [token.a, token.b].map(|range| range.cut(&list.text).unwrap_or_default());
        let (a, b) = reworded(token.kind, a, b);
        let style = if depth > 0 { token.style.min(2) } else { token.style };
        let (a, b) = (plain.append(&a), plain.append(&b));
        plain.tokens.push(Tok { a, b, style, ..*token });
    }
    plain.lay_in_steps();
    plain
}

/// Words of the same kind that YAML has: a name or a value in letters, a handle between two `!`.
fn reworded(kind: u32, a: &[u8], b: &[u8]) -> (Vec<u8>, Vec<u8>) {
    match kind {
        TAG_DIRECTIVE => (handle(a), letters(b)),
        TAG if a.is_empty() => (Vec::new(), if b == b"!" { b.to_vec() } else { letters(b) }),
        TAG => (handle(a), letters(b)),
        _ => (letters(a), Vec::new()),
    }
}

fn letters(word: &[u8]) -> Vec<u8> {
    let kept: Vec<u8> = word.iter().copied().filter(u8::is_ascii_alphanumeric).collect();
    match kept.is_empty() {
        true => format!("n{}", word.len()).into_bytes(),
        false => kept,
    }
}

fn handle(word: &[u8]) -> Vec<u8> {
    match word {
        b"!" | b"!!" => word.to_vec(),
        _ => [b"!", &letters(word)[..], b"!"].concat(),
    }
}
