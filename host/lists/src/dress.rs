//! From a list to a case: settings, buffers, fill.
use crate::list::List;
use crate::rng::Rng;
use records::{Case, Rooms, Settings};

/// A case over a list with room enough, everything else drawn.
pub fn dress(rng: &mut Rng, list: &List) -> Case {
    let settings = rng.pick(&Settings::ALL);
    dress_for(rng, list, settings)
}

/// The same with settings that are already chosen.
pub fn dress_for(rng: &mut Rng, list: &List, settings: Settings) -> Case {
    let mut case = Case::roomy(&list.tokens, &list.text, settings);
    for setting in [&mut case.keep, &mut case.forget] {
        *setting *= rng.pick(&[1, 1, 2, 255]);
    }
    case.fill = rng.pick(&[0, 1, 0x5A, Case::FILL, 0xFF]);
    case.answer_len = answer_length(rng);
    with_odd_ends(rng, case)
}

/// Mostly 12 bytes, sometimes more, now and then too few.
fn answer_length(rng: &mut Rng) -> u32 {
    match rng.below(24) {
        0 => rng.below(12) as u32,
        1..=4 => 13 + rng.below(28) as u32,
        _ => 12,
    }
}

/// Bytes that make no place at the end of some buffers.
pub fn with_odd_ends(rng: &mut Rng, case: Case) -> Case {
    let mut lengths = case.lengths();
    for (length, size) in lengths.iter_mut().zip(Rooms::SIZES) {
        if rng.one_in(4) {
            *length += rng.below(size) as u32;
        }
    }
    case.with_lengths(lengths)
}
