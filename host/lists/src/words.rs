//! The words that lists are made of.
use crate::list::List;
use crate::rng::Rng;
use records::kinds::{token_kind, Uses, LAST_STYLE, TAG, TAG_DIRECTIVE};
use records::Tok;

pub const NAMES: [&str; 6] = ["a", "b", "ab", "", "\u{e9}", "x-1"];
pub const VALUES: [&str; 6] = ["v", "", "true", "two words", "\u{65e5}\u{672c}", "!"];
pub const PREFIXES: [&str; 5] = ["tag:x,1:", "", "!", "p", "tag:yaml.org,2002:"];
pub const SUFFIXES: [&str; 5] = ["t", "", "!", "str", "\u{e9}"];
/// Handles that a tag may have without a directive.
pub const PLAIN_HANDLES: [&str; 5] = ["!", "!!", "", "foo", "!a"];
/// Handles that need one.
pub const LOCAL_HANDLES: [&str; 3] = ["!e!", "!f!", "!\u{e9}!"];

/// A token of a kind with any words; nothing says that it may stand anywhere.
pub fn any_token(rng: &mut Rng, list: &mut List, kind: u32) -> Tok {
    let mut token = Tok::new(kind);
    match token_kind(kind).uses {
        Uses::Nothing => {}
        Uses::Name => {
            let name = rng_word(rng, &NAMES);
            token.a = list.word(rng, name);
        }
        Uses::Value => {
            let value = rng_word(rng, &VALUES);
            token.a = list.word(rng, value);
            token.style = rng.below(LAST_STYLE as usize + 1) as u32;
        }
        Uses::Pair => {
            let handle = any_handle(rng);
            let second = match kind {
                TAG => rng_word(rng, &SUFFIXES),
                TAG_DIRECTIVE => rng_word(rng, &PREFIXES),
                other => unreachable!("kind {other} has no pair"),
            };
            (token.a, token.b) = (list.word(rng, handle), list.word(rng, second));
        }
    }
    token
}

pub fn any_handle(rng: &mut Rng) -> &'static [u8] {
    match rng.one_in(2) {
        true => rng_word(rng, &PLAIN_HANDLES),
        false => rng_word(rng, &LOCAL_HANDLES),
    }
}

pub fn rng_word(rng: &mut Rng, words: &[&'static str]) -> &'static [u8] {
    rng.pick(words).as_bytes()
}
