//! Rooms at, under and over what a list needs.
use crate::dress::{dress_for, with_odd_ends};
use crate::grammar::grammar;
use crate::mutated::mutate;
use crate::rng::Rng;
use crate::steered::steered;
use oracle::rust_needs;
use records::{Case, Rooms, Settings};

pub fn rooms(rng: &mut Rng) -> Case {
    let settings = rng.pick(&Settings::ALL);
    let size = 4 + rng.below(24);
    let list = match rng.below(3) {
        0 => steered(rng, settings),
        1 => grammar(rng, size),
        _ => {
            let mut list = grammar(rng, size);
            mutate(rng, &mut list);
            list
        }
    };
    let need = rust_needs(&list.tokens, &list.text, settings);
    let given = choose(rng, need.counts());
    let case = dress_for(rng, &list, settings).with_rooms(Rooms::from_counts(given));
    with_odd_ends(rng, case)
}

fn choose(rng: &mut Rng, need: [usize; 4]) -> [usize; 4] {
    let kind = rng.below(4);
    let mut given = need;
    match rng.below(6) {
        // one kind one place short
        0 | 1 => given[kind] = need[kind].saturating_sub(1),
        // exactly what is needed
        2 => {}
        // one kind short by any number
        3 => given[kind] = rng.below(need[kind] + 1),
        // each kind about the need
        4 => given = need.map(|need| (need + rng.below(4)).saturating_sub(2)),
        // nothing at all of some kinds
        _ => given = need.map(|need| if rng.one_in(2) { 0 } else { need + 1 }),
    }
    given
}
