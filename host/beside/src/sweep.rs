//! A class of lists through both, and what came of it.
use crate::face::call;
use oracle::answer;
use records::{difference, show_answer, show_case, Answer, Case};
use std::collections::BTreeMap;

/// What came of the lists of one class.
#[derive(Default)]
pub struct Tally {
    pub lists: usize,
    pub differ: usize,
    /// How many lists the Rust side answers with each number.
    pub numbers: BTreeMap<u32, usize>,
    pub first: Option<Difference>,
}

/// A list that the two answer differently.
pub struct Difference {
    pub index: usize,
    words: String,
    case: Case,
    rust: Answer,
    face: Answer,
}

/// `count` lists of a class through both; none if there is no such class.
pub fn sweep(class: &str, seed: u64, count: usize) -> Option<Tally> {
    lists::class(class, seed, count).map(sweep_of)
}

/// These lists through both.
pub fn sweep_of(cases: impl Iterator<Item = Case>) -> Tally {
    let mut tally = Tally::default();
    for case in cases {
        let (rust, face) = (answer(&case), call(&case));
        tally.take(case, rust, face);
    }
    tally
}

impl Tally {
    fn take(&mut self, case: Case, rust: Answer, face: Answer) {
        let index = self.lists;
        self.lists += 1;
        *self.numbers.entry(rust.returned).or_default() += 1;
        if let Some(words) = difference(&case, &rust, &face) {
            self.differ += 1;
            let found = || Difference { index, words, case, rust, face };
            self.first.get_or_insert_with(found);
        }
    }
}

impl Difference {
    /// As `lists show` prints a case and its answers, the Rust's before the proved run's.
    pub fn show(&self) -> String {
        let answers = [&self.rust, &self.face].map(|answer| show_answer(answer, &self.case.text));
        let parts = [show_case(&self.case), answers[0].clone(), answers[1].clone()];
        format!("list {}: {}\n{}", self.index, self.words, parts.map(cut).concat())
    }
}

/// A list at the limits has 65,536 lines: its beginning is enough.
fn cut(text: String) -> String {
    const LINES: usize = 200;
    match text.match_indices('\n').nth(LINES - 1) {
        Some((end, _)) if end + 1 < text.len() => format!("{}  and so on\n", &text[..=end]),
        _ => text,
    }
}

#[cfg(test)]
mod tests {
    use super::*;

    /// The first named lists, the second with an answer that `edit` changed.
    fn tally(edit: fn(&mut Answer)) -> Tally {
        let mut tally = Tally::default();
        for (i, case) in lists::class("named", 0, 5).expect("a class").enumerate() {
            let rust = answer(&case);
            let mut face = rust.clone();
            if i == 1 {
                edit(&mut face);
            }
            tally.take(case, rust, face);
        }
        tally
    }

    #[test]
    fn equal_answers_are_no_difference() {
        let tally = tally(|_| {});
        assert_eq!((tally.lists, tally.differ), (5, 0));
        assert!(tally.first.is_none());
        assert_eq!(tally.numbers, BTreeMap::from([(0, 3), (14, 2)]));
    }

    #[test]
    fn another_answer_is_counted_and_shown() {
        let tally = tally(|face| face.events[48] = 9);
        assert_eq!((tally.lists, tally.differ), (5, 1));
        let shown = tally.first.expect("a difference").show();
        assert!(shown.starts_with("list 1: event 1: kind: 2 / 9\ncase: keep 0"), "{shown}");
        assert!(shown.ends_with("  event 1: MappingStart 10-15\n"), "{shown}");
    }

    #[test]
    fn a_long_list_is_cut() {
        let line = "token\n";
        assert_eq!(cut(line.repeat(200)), line.repeat(200));
        assert_eq!(cut(line.repeat(201)), line.repeat(200) + "  and so on\n");
    }
}
