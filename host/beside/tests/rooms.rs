//! Every short list, in every mixture of rooms at the need and one place under it.
use beside::mixtures;
use emulated::sample::ROOMS;
use std::collections::BTreeSet;

/// Tokens of the longest lists, lists, calls, and calls with several rooms short. All is what the command `beside rooms` takes.
const TOTALS: [(usize, usize, usize, usize); 2] =
    [(ROOMS.all, 654_424, 4_256_920, 1_907_756), (ROOMS.less, 93_396, 543_280, 223_448)];

#[test]
fn rooms_at_the_need_and_one_under_are_answered_as_stated() {
    let tokens = ROOMS.size();
    let mixed = mixtures(tokens).unwrap_or_else(|words| panic!("{words}"));
    let found = (tokens, mixed.lists.values().sum(), mixed.calls, mixed.several);
    assert!(TOTALS.contains(&found), "no list is left out: {found:?}");
    let numbers: BTreeSet<u32> = mixed.numbers.keys().copied().collect();
    assert!(numbers.is_superset(&(22..=25).collect()), "every room was short: {numbers:?}");
}
