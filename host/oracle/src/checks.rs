//! The first checks, read from document 01: 20, 26, 27, 21, in this order.
use records::kinds::{LAST_KIND, LAST_STYLE, SCALAR};
use records::sizes::{MAX_TEXT, MAX_TOKENS, TOKEN};
use records::{decode, Range, Tok};

/// Number and place of the first check that the list or the text does not pass.
pub fn first_checks(tokens: &[u8], text: &[u8]) -> Option<(u32, u32)> {
    if !tokens.len().is_multiple_of(TOKEN) {
        return Some((20, 0));
    }
    if tokens.len() / TOKEN > MAX_TOKENS {
        return Some((26, 0));
    }
    if text.len() > MAX_TEXT {
        return Some((27, 0));
    }
    let bad = decode(tokens).iter().position(|token| !is_sound(token, text.len()));
    bad.map(|index| (21, index as u32))
}

fn is_sound(token: &Tok, text: usize) -> bool {
    let known = (1..=LAST_KIND).contains(&token.kind);
    let style = token.kind != SCALAR || token.style <= LAST_STYLE;
    let inside = |range: Range| range.from <= range.to && range.to as usize <= text;
    known && style && token.used_ranges().all(inside)
}
