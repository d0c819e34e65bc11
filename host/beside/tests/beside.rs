//! The proved run answers every list as the Rust does.
use beside::sweep_of;
use emulated::sample::{LIMITS, LISTS};
use lists::CLASSES;
use std::collections::BTreeSet;
use std::thread;

/// Lists of each class, and lists in all. The recorded run takes more.
const TOTALS: [(usize, usize); 2] = [(LISTS.all, 53_146), (LISTS.less, 35_101)];

#[test]
fn the_proved_run_answers_as_the_rust_does() {
    let (count, step) = (LISTS.size(), LIMITS.step());
    let tallies = thread::scope(|scope| {
        let work = |name| {
            let cases = lists::class(name, 0, count).expect("a class");
            let step = if name == "long" { step } else { 1 };
            scope.spawn(move || (name, sweep_of(cases.step_by(step))))
        };
        let threads = CLASSES.each_ref().map(|class| work(class.name));
        threads.map(|thread| thread.join().expect("the work ends"))
    });
    let (mut lists, mut numbers) = (0, BTreeSet::new());
    for (name, tally) in tallies {
        if let Some(first) = &tally.first {
            panic!("{} of {} differ\n{name}, {}", tally.differ, tally.lists, first.show());
        }
        lists += tally.lists;
        numbers.extend(tally.numbers.into_keys());
    }
    let expected: BTreeSet<u32> = (0..=14).chain(20..=28).collect();
    assert_eq!(numbers, expected, "every number of the run is met");
    assert!(TOTALS.contains(&(count, lists)), "{lists} lists");
}
