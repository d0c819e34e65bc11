//! What holds for every case of every class.
use lists::{class, CLASSES};
use oracle::{answer, first_checks, rust_needs, rust_rooms, rust_run, Job, Reading};
use records::kinds::STREAM_END;
use records::{decode, Case, Rooms, Settings, Tok};

/// Cases of a class, each with its tokens; those that the first checks refuse are left out.
fn sound(name: &str, count: usize) -> impl Iterator<Item = (Case, Vec<Tok>)> {
    let cases = class(name, 0, count).expect("a class");
    let passes = |case: &Case| first_checks(&case.tokens, &case.text).is_none();
    cases.filter(passes).map(|case| {
        let list = decode(&case.tokens);
        (case, list)
    })
}

/// How many cases of each class a sweep takes; the listed ones end before.
fn each_class(count: usize) -> impl Iterator<Item = (&'static str, usize)> {
    CLASSES.iter().map(move |class| (class.name, count))
}

/// parser.rs never panics, gives no unknown message, and agrees with its noted copy.
#[test]
fn the_oracle_never_fails() {
    for (name, count) in each_class(20_000) {
        for case in class(name, 0, count).expect("a class") {
            assert!(!answer(&case).failed(), "{name}: {case:?}");
        }
    }
}

/// `load` on the one hand, the iterator with names forgotten at each DocumentStart on the other.
#[test]
fn the_two_ways_of_forgetting_agree() {
    let mut refused = 0;
    for (name, count) in each_class(40_000) {
        for (case, list) in sound(name, count) {
            let forgetting = Settings { forget: true, ..case.settings() };
            let load = rust_run(&list, &case.text, forgetting);
            let iterator = rust_rooms(&list, &case.text, forgetting, Rooms::ENDLESS);
            assert!(load == iterator, "{name}: {case:?}");
            refused += usize::from(load.number == 7);
        }
    }
    assert!(refused > 100, "only {refused} aliases met no name");
}

#[test]
fn the_carried_reading_agrees_with_the_direct_one() {
    let (mut tagged, mut direct) = (0, 0);
    for (name, count) in each_class(20_000) {
        for (case, list) in sound(name, count) {
            let job = Job::new(&list, &case.text, case.settings());
            if job.reading() == Reading::Direct {
                let run = job.run();
                assert!(job.carried().run() == run, "{name}: {case:?}");
                direct += 1;
                tagged += usize::from(!run.side.is_ascii());
            }
        }
    }
    assert!(direct > 50_000 && tagged > 500, "{direct} direct, {tagged} with letters in tags");
}

#[test]
fn bytes_that_are_no_characters_are_carried() {
    let readings: Vec<Reading> = sound("damaged", 2_000)
        .map(|(case, list)| Job::new(&list, &case.text, case.settings()).reading())
        .collect();
    let carried = readings.iter().filter(|reading| **reading == Reading::Carried).count();
    assert!(carried > 300, "only {carried} are carried");
}

/// With what a list needs no room is short; with one place less of any kind one is.
#[test]
fn needs_are_exact() {
    for name in ["named", "short", "grammar", "mutated", "steered", "real"] {
        for (case, list) in sound(name, 3_000).filter(|(_, list)| list.len() < 100) {
            let run = |rooms| rust_rooms(&list, &case.text, case.settings(), rooms);
            let need = rust_needs(&list, &case.text, case.settings());
            let plain = rust_run(&list, &case.text, case.settings());
            assert!(run(need) == plain, "{name}: {need:?} {case:?}");
            for kind in 0..4 {
                let mut less = need.counts();
                if less[kind] > 0 {
                    less[kind] -= 1;
                    let number = run(Rooms::from_counts(less)).number;
                    assert_eq!(number, 22 + kind as u32, "{name}: {less:?} {case:?}");
                }
            }
        }
    }
}

/// Room for 3T events and T places of each kind never runs short, and an accepted list of A tokens up to StreamEnd gives
/// at most 3A - 4 events.
#[test]
fn the_room_of_demand_3_is_enough() {
    for (name, count) in each_class(10_000) {
        for (case, list) in sound(name, count) {
            let need = rust_needs(&list, &case.text, case.settings()).counts();
            let given = Rooms::for_tokens(list.len()).counts();
            assert!((0..4).all(|i| need[i] <= given[i]), "{name}: {need:?} {case:?}");
            if rust_run(&list, &case.text, case.settings()).number == 0 {
                let end = list.iter().position(|token| token.kind == STREAM_END);
                let used = 1 + end.expect("an accepted list has an end");
                assert!(need[0] <= 3 * used - 4, "{name}: {need:?} {case:?}");
            }
        }
    }
}

#[test]
fn grammar_lists_are_accepted_with_every_setting() {
    for (case, list) in sound("grammar", 10_000) {
        for settings in Settings::ALL {
            let number = rust_run(&list, &case.text, settings).number;
            assert_eq!(number, 0, "{settings:?} {case:?}");
        }
    }
}

#[test]
fn a_seed_gives_the_same_cases_again_and_another_others() {
    for (name, count) in each_class(50) {
        let draw = |seed| class(name, seed, count).expect("a class").collect::<Vec<_>>();
        assert!(draw(1) == draw(1), "{name}");
        assert!(draw(1).is_empty() || draw(1) != draw(0), "{name}");
    }
    assert!(class("nothing", 0, 1).is_none());
}
