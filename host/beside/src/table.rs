//! What is printed: a row for each class, then the totals and the first difference.
use beside::{Difference, Mixed, Tally, Walked};
use std::collections::BTreeMap;

/// The rows so far.
#[derive(Default)]
pub struct Table {
    all: Tally,
    first: Option<(&'static str, Difference)>,
}

pub fn head() -> String {
    row("class", "lists", "differ")
}

fn row(class: &str, lists: &str, differ: &str) -> String {
    format!("{class:8} {lists:>10} {differ:>8}\n")
}

impl Table {
    /// Takes a class in and gives its row.
    pub fn add(&mut self, class: &'static str, tally: Tally) -> String {
        self.all.lists += tally.lists;
        self.all.differ += tally.differ;
        for (number, lists) in tally.numbers {
            *self.all.numbers.entry(number).or_default() += lists;
        }
        if self.first.is_none() {
            self.first = tally.first.map(|first| (class, first));
        }
        row(class, &tally.lists.to_string(), &tally.differ.to_string())
    }

    pub fn lists(&self) -> usize {
        self.all.lists
    }

    pub fn differ(&self) -> usize {
        self.all.differ
    }

    pub fn total(&self) -> String {
        let mut lines = row("all", &self.all.lists.to_string(), &self.all.differ.to_string());
        lines += &format!("answered by number: {}\n", by_number(&self.all.numbers));
        if let Some((class, first)) = &self.first {
            lines +=
                &format!("first difference (the Rust / the proved run): {class}, {}", first.show());
        }
        lines
    }
}

pub fn walk_head() -> String {
    format!(
        "{:8} {:>8} {:>8} {:>8} {:>8} {:>8} {:>8}\n",
        "class", "lists", "differ", "0", "20", "30", "31"
    )
}

/// A class of event lists, how many are answered with each number, and the first difference.
pub fn walked(class: &str, walked: &Walked) -> String {
    let [passed, uneven, unexpected, deep] = walked.numbers;
    let numbers = format!("{passed:8} {uneven:8} {unexpected:8} {deep:8}");
    let row = format!("{class:8} {:8} {:8} {numbers}\n", walked.lists, walked.differ);
    match &walked.first {
        Some(first) => row + first + "\n",
        None => row,
    }
}

/// The lists by length, and the calls.
pub fn mixed(mixed: &Mixed) -> String {
    let mut lines = format!("{:>6} {:>10}\n", "tokens", "lists");
    for (tokens, lists) in &mixed.lists {
        lines += &format!("{tokens:6} {lists:10}\n");
    }
    lines += &format!("{:>6} {:10}\n", "all", mixed.lists.values().sum::<usize>());
    lines += &format!("calls: {}, with several rooms short: {}\n", mixed.calls, mixed.several);
    lines + &format!("answered by number: {}\n", by_number(&mixed.numbers))
}

fn by_number(numbers: &BTreeMap<u32, usize>) -> String {
    let parts: Vec<String> = numbers.iter().map(|(n, lists)| format!("{n}: {lists}")).collect();
    parts.join(", ")
}
