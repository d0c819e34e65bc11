//! Lists of events through the walk by hand and the proved one.
use crate::walk::{walk, DEEPEST};
use lists::Rng;
use oracle::answer;
use records::kinds::event;
use records::sizes::{ANSWER, EVENT};
use saphyr_events::face::load;

/// How a list of events is made.
pub type Make = fn(&mut Rng) -> Vec<u8>;

pub const CLASSES: [(&str, Make); 6] = [
    ("runs", run_events),
    ("mutated", mutated),
    ("random", random),
    ("trees", trees),
    ("deep", deep),
    ("cut", cut),
];

/// What came of one class.
#[derive(Default)]
pub struct Walked {
    pub lists: usize,
    pub differ: usize,
    /// How many are answered with 0, 20, 30 and 31.
    pub numbers: [usize; 4],
    pub first: Option<String>,
}

/// `count` lists of a class through both.
pub fn walks(make: Make, seed: u64, count: usize) -> Walked {
    let mut walked = Walked::default();
    for index in 0..count {
        let events = make(&mut Rng::for_case(seed, index as u64));
        walked.take(index, &events);
    }
    walked
}

impl Walked {
    fn take(&mut self, index: usize, events: &[u8]) {
        let (by_hand, proved) = (said(walk(events)), proved(events));
        self.lists += 1;
        let row = [0, 20, 30, 31].iter().position(|number| *number == by_hand[0]);
        self.numbers[row.expect("the walk has four numbers")] += 1;
        if by_hand != proved {
            self.differ += 1;
            let words = || {
                format!(
                    "list {index}: by hand {by_hand:?}, proved {proved:?}\n{:?}",
                    kinds_of(events)
                )
            };
            self.first.get_or_insert_with(words);
        }
    }
}

/// Returned number, number, count, place; and that the answer's tail stands.
fn said((number, place): (u32, u32)) -> [u32; 5] {
    [number, number, 0, place, 1]
}

fn proved(events: &[u8]) -> [u32; 5] {
    let mut answer = [0xA5; ANSWER + 4];
    let returned = load(events, &mut answer);
    let word = |i: usize| u32::from_le_bytes(answer[i..i + 4].try_into().expect("four bytes"));
    [returned, word(0), word(4), word(8), u32::from(answer[ANSWER..] == [0xA5; 4])]
}

fn kinds_of(events: &[u8]) -> Vec<u32> {
    events
        .chunks_exact(EVENT)
        .map(|record| u32::from_le_bytes(record[..4].try_into().expect("four bytes")))
        .collect()
}

/// A record of this kind, with rubbish behind it: the walk reads kinds only.
fn record(rng: &mut Rng, kind: u32) -> [u8; EVENT] {
    let mut bytes = [rng.byte(); EVENT];
    bytes[..4].copy_from_slice(&kind.to_le_bytes());
    bytes
}

fn records(rng: &mut Rng, kinds: &[u32]) -> Vec<u8> {
    kinds.iter().flat_map(|kind| record(rng, *kind)).collect()
}

/// The events of a run of the Rust, whatever its end.
fn run_events(rng: &mut Rng) -> Vec<u8> {
    let class = rng.pick(&["grammar", "mutated", "steered", "rooms"]);
    let case = lists::class(class, rng.number(), 1).expect("a class").next();
    answer(&case.expect("a drawn class has lists")).events
}

/// A few events of a run changed, dropped, doubled or added.
fn mutated(rng: &mut Rng) -> Vec<u8> {
    let mut kinds = kinds_of(&run_events(rng));
    for _ in 0..=rng.below(3) {
        let at = rng.below(kinds.len() + 1);
        match rng.below(3) {
            0 => kinds.insert(at, any_kind(rng)),
            1 if at < kinds.len() => kinds[at] = any_kind(rng),
            _ if at < kinds.len() => drop(kinds.remove(at)),
            _ => {}
        }
    }
    records(rng, &kinds)
}

/// Mostly the ten kinds, now and then a number that is none.
fn any_kind(rng: &mut Rng) -> u32 {
    match rng.one_in(12) {
        true => rng.pick(&[0, 11, 256, u32::MAX]),
        false => 1 + rng.below(10) as u32,
    }
}

fn random(rng: &mut Rng) -> Vec<u8> {
    let head =
        rng.pick(&[&[][..], &[event::STREAM_START], &[event::STREAM_START, event::DOCUMENT_START]]);
    let mut kinds = head.to_vec();
    for _ in 0..rng.below(12) {
        kinds.push(any_kind(rng));
    }
    records(rng, &kinds)
}

/// A stream of documents that the walk accepts.
fn trees(rng: &mut Rng) -> Vec<u8> {
    let mut kinds = vec![event::STREAM_START];
    for _ in 0..rng.below(4) {
        kinds.push(event::DOCUMENT_START);
        node(rng, 5, &mut kinds);
        kinds.push(event::DOCUMENT_END);
    }
    kinds.push(event::STREAM_END);
    records(rng, &kinds)
}

fn node(rng: &mut Rng, depth: usize, kinds: &mut Vec<u32>) {
    let leaf = depth == 0 || rng.one_in(2);
    let [start, end, nodes] = match rng.below(2) {
        _ if leaf => return kinds.push(rng.pick(&[event::ALIAS, event::SCALAR])),
        0 => [event::SEQUENCE_START, event::SEQUENCE_END, rng.below(4) as u32],
        _ => [event::MAPPING_START, event::MAPPING_END, 2 * rng.below(3) as u32],
    };
    kinds.push(start);
    (0..nodes).for_each(|_| node(rng, depth - 1, kinds));
    kinds.push(end);
}

/// Collections one in the other, about as many as may be open, whole or cut off.
fn deep(rng: &mut Rng) -> Vec<u8> {
    let depth = DEEPEST - 3 + rng.below(6);
    let mut kinds = vec![event::STREAM_START, event::DOCUMENT_START];
    let mut ends = vec![event::STREAM_END, event::DOCUMENT_END];
    for _ in 0..depth {
        let mapping = rng.one_in(2);
        kinds.extend(if mapping {
            [event::MAPPING_START, event::SCALAR].as_slice()
        } else {
            &[event::SEQUENCE_START]
        });
        ends.push(if mapping { event::MAPPING_END } else { event::SEQUENCE_END });
    }
    kinds.push(event::SCALAR);
    kinds.extend(ends.into_iter().rev());
    let whole = kinds.len();
    kinds.truncate(if rng.one_in(3) { rng.below(whole) } else { whole });
    records(rng, &kinds)
}

/// A length that is no multiple of 48, most often.
fn cut(rng: &mut Rng) -> Vec<u8> {
    let mut events = trees(rng);
    events.truncate(events.len() - rng.below(EVENT.min(events.len())));
    events
}
