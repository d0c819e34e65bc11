//! Time: the sides in turns in one process, the best of several rounds each. Only ratios leave this file.
use speed::{Buffers, List, Side};
use std::time::{Duration, Instant};

/// As many rounds, or as many as there is patience for, but not fewer than the least. Short ones: the best of them is
/// one that nothing else on the machine disturbed.
const ROUNDS: usize = 75;
const LEAST: usize = 3;
const PATIENCE: Duration = Duration::from_secs(5);
/// A round runs a short list so often that it takes as long as one with so many tokens.
const ROUND: usize = 8_192;

/// The first side's time as a part of each other's.
pub fn ratios<const N: usize>(
    list: List,
    first: Side,
    others: [Side; N],
) -> Result<[f64; N], String> {
    let mut buffers = Buffers::new(first.rooms(list.count()));
    let (mut best, mut bests) = (Duration::MAX, [Duration::MAX; N]);
    let begun = Instant::now();
    for done in 0..ROUNDS {
        if done >= LEAST && begun.elapsed() > PATIENCE {
            break;
        }
        best = best.min(round(list, first, &mut buffers)?);
        for (side, best) in others.iter().zip(&mut bests) {
            *best = (*best).min(round(list, *side, &mut buffers)?);
        }
    }
    Ok(bests.map(|other| best.as_secs_f64() / other.as_secs_f64()))
}

fn round(list: List, side: Side, buffers: &mut Buffers) -> Result<Duration, String> {
    let times = (ROUND / list.count()).max(1);
    let begun = Instant::now();
    for _ in 0..times {
        side.run(list, buffers)?;
    }
    Ok(begun.elapsed())
}
