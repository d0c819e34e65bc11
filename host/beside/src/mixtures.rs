//! Rooms at the need of a list and one place under it, in every mixture. The need is the Rust's, never the proved run's.
use crate::face::call;
use crate::growth::grow;
use lists::List;
use oracle::{answer, answer_after, rust_needs, Run};
use records::{difference, show_answer, show_case, Answer, Case, Rooms, Settings};
use std::collections::BTreeMap;
use std::thread;

/// What came of a sweep.
#[derive(Clone, Debug, Default, PartialEq, Eq)]
pub struct Mixed {
    /// Lists by their length in tokens, over all settings.
    pub lists: BTreeMap<usize, usize>,
    /// Calls: a list in one mixture of rooms.
    pub calls: usize,
    /// How many calls were answered by each number.
    pub numbers: BTreeMap<u32, usize>,
    /// Calls with more than one room short.
    pub several: usize,
}

/// Every list of up to `tokens` tokens (see `grow`), with all settings, in every mixture of rooms.
///
/// # Errors
/// The first call of a setting that is not answered as stated, in words.
pub fn mixtures(tokens: usize) -> Result<Mixed, String> {
    let parts = thread::scope(|scope| {
        let work = |settings| scope.spawn(move || mixtures_with(tokens, settings));
        Settings::ALL.map(work).map(|thread| thread.join().expect("the work ends"))
    });
    parts.into_iter().try_fold(Mixed::default(), |all, part| Ok(all.with(part?)))
}

fn mixtures_with(tokens: usize, settings: Settings) -> Result<Mixed, String> {
    let mut mixed = Mixed::default();
    let mut found = Ok(());
    grow(tokens, settings, |list, full| {
        if found.is_ok() {
            found = mixed.take(list, full, settings);
        }
    });
    found.map(|()| mixed)
}

impl Mixed {
    /// Both sweeps as one.
    fn with(mut self, other: Mixed) -> Mixed {
        for (tokens, lists) in other.lists {
            *self.lists.entry(tokens).or_default() += lists;
        }
        for (number, calls) in other.numbers {
            *self.numbers.entry(number).or_default() += calls;
        }
        self.calls += other.calls;
        self.several += other.several;
        self
    }

    fn take(&mut self, list: &List, full: &Run, settings: Settings) -> Result<(), String> {
        *self.lists.entry(list.tokens.len()).or_default() += 1;
        let need = rust_needs(&list.tokens, &list.text, settings).counts();
        let mut answers: Vec<(usize, Answer)> = Vec::new();
        for short in (0..16).filter(|short| possible(*short, need)) {
            let rooms = Rooms::from_counts(std::array::from_fn(|i| need[i] - (short >> i & 1)));
            let case = Case::roomy(&list.tokens, &list.text, settings).with_rooms(rooms);
            let given = call(&case);
            let as_rust = difference(&case, &answer_after(full, &case), &given);
            let words = as_rust.or_else(|| as_stated(full, short, &given, &answers));
            if let Some(words) = words {
                return Err(shown(&words, &case, &given));
            }
            self.count(short, given.number);
            answers.push((short, given));
        }
        Ok(())
    }

    fn count(&mut self, short: usize, number: u32) {
        self.calls += 1;
        self.several += usize::from(short.count_ones() > 1);
        *self.numbers.entry(number).or_default() += 1;
    }
}

/// Nothing is one under a need of 0: such mixtures are others once more. Bit i of `short` is room i of `Rooms::counts`.
fn possible(short: usize, need: [usize; 4]) -> bool {
    (0..4).all(|i| short >> i & 1 == 0 || need[i] > 0)
}

/// What demand 3 says of a mixture, in words where it is not so. `before` are the answers of the mixtures before this
/// one: with nothing short first, and each room short by itself before several are.
fn as_stated(
    full: &Run,
    short: usize,
    given: &Answer,
    before: &[(usize, Answer)],
) -> Option<String> {
    if short == 0 {
        let same = (given.number, given.place, given.count as usize)
            == (full.number, full.place, full.events.len());
        return (!same)
            .then(|| "the needs are met, but the answer is not the full run's".to_owned());
    }
    // 22 to 25 in the order of the rooms.
    let lacks = (22..=25).contains(&given.number) && short >> (given.number - 22) & 1 == 1;
    if !lacks {
        return Some(format!(
            "{} is no room that is short (of 22 to 25, set {short:04b})",
            given.number
        ));
    }
    if !before[0].1.events.starts_with(&given.events) {
        return Some("the events are no beginning of the full run's".to_owned());
    }
    // The first act that lacks its room stops the run, so several short rooms stop it where the first alone does.
    let alone = before.iter().filter(|(other, _)| other.count_ones() == 1 && other & short != 0);
    let first = alone.map(|(_, answer)| answer.count).min().filter(|_| short.count_ones() > 1);
    let late = first.is_some_and(|first| first != given.count);
    late.then(|| "stopped elsewhere than the first of its short rooms stops it".to_owned())
}

fn shown(words: &str, case: &Case, given: &Answer) -> String {
    let expected = show_answer(&answer(case), &case.text);
    let given = show_answer(given, &case.text);
    format!("{words}\n{}the Rust's {expected}the proved run's {given}", show_case(case))
}

#[cfg(test)]
mod tests {
    use super::*;

    /// A run of three events, and an answer to it in some mixture.
    fn stated(short: usize, number: u32, count: u32) -> Option<String> {
        let events = vec![records::Ev::default(); 3];
        let full = Run { number: 14, place: 9, events, side: Vec::new() };
        let answer = |number, count: u32, place| Answer {
            number,
            count,
            place,
            events: vec![0; 48 * count as usize],
            ..Answer::default()
        };
        let before = [
            (0, answer(14, 3, 9)),
            (1, answer(22, 2, 0)),
            (2, answer(23, 1, 0)),
            (4, answer(24, 2, 0)),
        ];
        let place = if number == 14 { 9 } else { 0 };
        as_stated(&full, short, &answer(number, count, place), &before)
    }

    #[test]
    fn a_mixture_is_held_to_what_is_stated() {
        assert_eq!(stated(0b0000, 14, 3), None);
        assert!(stated(0b0000, 14, 2).is_some());
        assert!(stated(0b0000, 22, 2).is_some());
        assert_eq!(stated(0b0001, 22, 2), None);
        assert!(stated(0b0001, 23, 2).is_some());
        assert!(stated(0b0001, 14, 3).is_some());
        assert!(stated(0b0001, 22, 4).is_some(), "more events than the full run has");
        assert_eq!(stated(0b0011, 23, 1), None);
        assert!(stated(0b0011, 22, 2).is_some(), "the open states were short first");
        assert_eq!(stated(0b0101, 24, 2), None);
    }

    #[test]
    fn a_need_of_none_is_never_one_under() {
        let masks = |need| (0..16).filter(|short| possible(*short, need)).count();
        assert_eq!(masks([3, 1, 1, 1]), 16);
        assert_eq!(masks([3, 1, 0, 0]), 4);
        assert_eq!(masks([0, 0, 0, 0]), 1);
    }
}
