//! The fixture: small cases of every class, each followed by its answer.
use crate::class::class;
use crate::crossed::ROUND;
use oracle::answer;
use records::sizes::{EVENT, TOKEN};
use records::{Answer, Case, Rooms};

/// A class's share: its seed, how many cases are drawn, and that every `step`-th of them is taken.
struct Share {
    class: &'static str,
    seed: u64,
    drawn: usize,
    step: usize,
}

const SHARES: [Share; 10] = [
    Share { class: "named", seed: 0, drawn: usize::MAX, step: 1 },
    Share { class: "crossed", seed: 0, drawn: ROUND, step: 1 },
    Share { class: "short", seed: 0, drawn: 80_000, step: 97 },
    Share { class: "grammar", seed: 1, drawn: 400, step: 1 },
    Share { class: "mutated", seed: 2, drawn: 400, step: 1 },
    Share { class: "steered", seed: 3, drawn: 400, step: 1 },
    Share { class: "damaged", seed: 4, drawn: 450, step: 1 },
    Share { class: "rooms", seed: 5, drawn: 450, step: 1 },
    Share { class: "long", seed: 0, drawn: 20, step: 1 },
    Share { class: "real", seed: 0, drawn: usize::MAX, step: 1 },
];

/// What a program that replays the fixture needs room for; `tests/README.md` repeats it.
const MAX_TOKENS: usize = 64;
const MAX_TEXT: usize = 256;
const MAX_EVENTS: usize = 200;
const MAX_SIDE: usize = 2_048;
const MAX_ANSWER: u32 = 64;
const MAX_ROOMS: [usize; 4] = [MAX_EVENTS, MAX_TOKENS + 4, MAX_TOKENS + 4, MAX_TOKENS + 4];

/// The files by class, whole.
pub fn fixture() -> impl Iterator<Item = (&'static str, Vec<u8>)> {
    SHARES.iter().map(|share| (share.class, share.bytes()))
}

impl Share {
    fn bytes(&self) -> Vec<u8> {
        let cases = class(self.class, self.seed, self.drawn).expect("a share names a class");
        let mut bytes = Vec::new();
        for case in cases.step_by(self.step).filter(case_fits) {
            let answer = answer(&case);
            if answer_fits(&answer) {
                case.put(&mut bytes);
                answer.put(&mut bytes);
            }
        }
        bytes
    }
}

fn case_fits(case: &Case) -> bool {
    let lengths = case.lengths();
    let lent = (0..4).all(|i| lengths[i] as usize <= MAX_ROOMS[i] * Rooms::SIZES[i]);
    let list = case.tokens.len() <= MAX_TOKENS * TOKEN && case.text.len() <= MAX_TEXT;
    lent && list && case.answer_len <= MAX_ANSWER
}

fn answer_fits(answer: &Answer) -> bool {
    answer.events.len() <= MAX_EVENTS * EVENT && answer.side.len() <= MAX_SIDE
}
