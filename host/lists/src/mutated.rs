//! Lists of the grammar with a few edits.
use crate::list::List;
use crate::rng::Rng;
use crate::words::any_token;
use records::kinds::LAST_KIND;
use records::Range;

/// One to three edits of a list; every used range stays inside the text.
pub fn mutate(rng: &mut Rng, list: &mut List) {
    for _ in 0..1 + rng.below(3) {
        if let Some(last) = list.tokens.len().checked_sub(1) {
            let at = rng.below(last + 1);
            let edit = rng.pick(&EDITS);
            edit(rng, list, at);
        }
    }
}

const EDITS: [fn(&mut Rng, &mut List, usize); 7] =
    [drop, double, swap, change_kind, insert, change_range, truncate];

fn drop(_: &mut Rng, list: &mut List, at: usize) {
    list.tokens.remove(at);
}

fn double(_: &mut Rng, list: &mut List, at: usize) {
    list.tokens.insert(at, list.tokens[at]);
}

fn swap(rng: &mut Rng, list: &mut List, at: usize) {
    let other = rng.below(list.tokens.len());
    list.tokens.swap(at, other);
}

fn change_kind(rng: &mut Rng, list: &mut List, at: usize) {
    let old = list.tokens[at];
    let kind = 1 + rng.below(LAST_KIND as usize) as u32;
    list.tokens[at] = any_token(rng, list, kind).at(old.start, old.end);
}

fn insert(rng: &mut Rng, list: &mut List, at: usize) {
    double(rng, list, at);
    change_kind(rng, list, at);
}

/// Another range of the text, so that names meet or miss each other; it may cut a character.
fn change_range(rng: &mut Rng, list: &mut List, at: usize) {
    let token = &mut list.tokens[at];
    let end = list.text.len() + 1;
    let (one, other) = (rng.below(end) as u32, rng.below(end) as u32);
    let range = Range::new(one.min(other), one.max(other));
    match rng.one_in(2) {
        true => token.a = range,
        false => token.b = range,
    }
}

fn truncate(_: &mut Rng, list: &mut List, at: usize) {
    list.tokens.truncate(at);
}
