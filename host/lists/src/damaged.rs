//! Bytes that are no sound list, texts that are no UTF-8, and sound lists with rubbish where nothing is read.
use crate::dress::dress;
use crate::grammar::grammar;
use crate::list::{any_range, List};
use crate::rng::Rng;
use records::kinds::{token_kind, Uses, LAST_KIND, LAST_STYLE};
use records::{Case, Range, Tok};

pub fn damaged(rng: &mut Rng) -> Case {
    let size = 2 + rng.below(24);
    let mut list = grammar(rng, size);
    let damage = rng.pick(&DAMAGES);
    damage(rng, &mut list);
    if rng.one_in(2) {
        list.litter(rng);
    }
    let mut case = dress(rng, &list);
    match rng.below(16) {
        // a length that is perhaps no multiple of 32
        0 | 1 => case.tokens.truncate(case.tokens.len() - rng.below(40)),
        // any bytes at all
        2 => case.tokens = (0..rng.below(130)).map(|_| rng.byte()).collect(),
        _ => {}
    }
    case
}

const DAMAGES: [fn(&mut Rng, &mut List); 8] = [
    any_records,
    bad_record,
    bad_record_behind,
    no_utf8,
    cut_characters,
    overlapping_names,
    shorter_text,
    |_, _| {},
];

/// Records of any numbers, kinds and ranges among them often small enough to be sound.
fn any_records(rng: &mut Rng, list: &mut List) {
    for token in &mut list.tokens {
        if rng.one_in(8) {
            let small = |rng: &mut Rng| rng.below(40) as u32;
            let kind = rng.below(LAST_KIND as usize + 2) as u32;
            let a = Range::new(small(rng), small(rng));
            *token = Tok { kind, a, b: any_range(rng), style: small(rng), ..*token };
        }
    }
}

/// One record that 21 speaks of: its kind, its style, or a used range.
fn bad_record(rng: &mut Rng, list: &mut List) {
    let at = rng.below(list.tokens.len());
    let beyond = list.text.len() as u32 + 1;
    let token = &mut list.tokens[at];
    let (past, back) = (Range::new(0, beyond), Range::new(1, 0));
    let wrong = rng.pick(&[past, back, Range::new(beyond, beyond), Range::new(u32::MAX, u32::MAX)]);
    match token_kind(token.kind).uses {
        Uses::Value if rng.one_in(2) => token.style = LAST_STYLE + 1 + rng.below(3) as u32,
        Uses::Pair if rng.one_in(2) => token.b = wrong,
        Uses::Nothing => token.kind = rng.pick(&[0, LAST_KIND + 1, 256, u32::MAX]),
        _ => token.a = wrong,
    }
}

/// The same after StreamEnd, where no step looks.
fn bad_record_behind(rng: &mut Rng, list: &mut List) {
    let mut behind = grammar(rng, 4);
    behind.text.clone_from(&list.text);
    for token in &mut behind.tokens {
        (token.a, token.b) = (Range::default(), Range::default());
    }
    if rng.one_in(2) {
        bad_record(rng, &mut behind);
    }
    list.tokens.append(&mut behind.tokens);
}

/// High bytes that make no characters; names that were equal change alike.
fn no_utf8(rng: &mut Rng, list: &mut List) {
    let (old, new) = (rng.pick(b"abetx!"), 0x80 + rng.byte() % 0x80);
    for byte in &mut list.text {
        if *byte == old {
            *byte = new;
        }
    }
}

/// Ranges that begin or end inside a character.
fn cut_characters(rng: &mut Rng, list: &mut List) {
    let cut = list.append("\u{e9}\u{e9}".as_bytes()).from;
    for token in &mut list.tokens {
        if rng.one_in(3) {
            let from = cut + rng.below(3) as u32;
            token.a = Range::new(from, from + rng.below(2) as u32);
        }
    }
}

/// Ranges anywhere in a text of few different bytes: many names are equal, and many handles are of the form `!x!`.
fn overlapping_names(rng: &mut Rng, list: &mut List) {
    list.text = (0..24).map(|_| rng.pick(b"!!!aa\xff")).collect();
    for token in &mut list.tokens {
        for range in [&mut token.a, &mut token.b] {
            let from = rng.below(22) as u32;
            *range = Range::new(from, from + rng.below(3) as u32);
        }
    }
}

/// The text ends before some of the ranges do.
fn shorter_text(rng: &mut Rng, list: &mut List) {
    let length = rng.below(list.text.len() + 1);
    list.text.truncate(length);
}
