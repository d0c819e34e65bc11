//! A token list with its text, and the ways to lay out positions and unused fields.
use crate::rng::Rng;
use records::kinds::{token_kind, Uses};
use records::{Range, Tok};

#[derive(Clone, Debug, Default, PartialEq, Eq)]
pub struct List {
    pub tokens: Vec<Tok>,
    pub text: Vec<u8>,
}

impl List {
    /// Appends a word; its own range even where the same bytes stand elsewhere.
    pub fn append(&mut self, word: &[u8]) -> Range {
        let from = self.text.len() as u32;
        self.text.extend_from_slice(word);
        Range::new(from, self.text.len() as u32)
    }

    /// A range with the bytes of a word: an earlier one or a new one.
    pub fn word(&mut self, rng: &mut Rng, word: &[u8]) -> Range {
        let mut places = self.text.windows(word.len().max(1));
        match places.position(|place| place == word) {
            Some(from) if rng.one_in(2) => Range::new(from as u32, (from + word.len()) as u32),
            _ => self.append(word),
        }
    }

    /// Token i stands at 10i to 10i+5.
    pub fn lay_in_steps(&mut self) {
        for (i, token) in self.tokens.iter_mut().enumerate() {
            *token = token.at(10 * i as u32, 10 * i as u32 + 5);
        }
    }

    /// Positions of one manner for the whole list: rising as a scanner's, or any numbers.
    pub fn lay(&mut self, rng: &mut Rng) {
        let manner = rng.below(6);
        let mut at = 0;
        for token in &mut self.tokens {
            let start = at + rng.below(4) as u32;
            at = start + rng.below(5) as u32;
            *token = match manner {
                0 => token.at(rng.word(), rng.word()),
                1 => token.at(u32::MAX - rng.below(3) as u32, u32::MAX - rng.below(3) as u32),
                _ => token.at(start, at),
            };
        }
    }

    /// Rubbish in every field that the kind does not use.
    pub fn litter(&mut self, rng: &mut Rng) {
        for token in &mut self.tokens {
            let uses = token_kind(token.kind).uses;
            if uses == Uses::Nothing {
                token.a = any_range(rng);
            }
            if uses != Uses::Pair {
                token.b = any_range(rng);
            }
            if uses != Uses::Value {
                token.style = rng.word();
            }
        }
    }
}

pub fn any_range(rng: &mut Rng) -> Range {
    Range::new(rng.word(), rng.word())
}
