//! The proved walk beside one written by hand, and beside the Rust's `load`.
use beside::{walk, walks, WALKS};
use emulated::sample;

#[test]
fn the_proved_walk_answers_as_the_one_by_hand() {
    let count = sample::WALKS.size();
    for (class, make) in WALKS {
        let walked = walks(make, 1, count);
        assert_eq!((walked.lists, walked.differ), (count, 0), "{class}: {:?}", walked.first);
    }
}

/// What `load` of parser.rs takes to its end passes the walk; what it refuses is a list that ends early.
#[test]
fn the_walk_follows_load() {
    let mut ends = [0; 2];
    for class in ["grammar", "mutated", "steered"] {
        for case in lists::class(class, 3, 2_000).expect("a class").filter(|case| case.forget != 0)
        {
            let rust = oracle::answer(&case);
            let count = (rust.events.len() / 48) as u32;
            let said = if rust.number == 0 { (0, 0) } else { (30, count) };
            let given = walk(&rust.events);
            assert!(given == said || given.0 == 31, "{case:?}: {given:?}, not {said:?}");
            ends[usize::from(rust.number == 0)] += 1;
        }
    }
    assert!(ends.iter().all(|lists| *lists > 100), "{ends:?}");
}
