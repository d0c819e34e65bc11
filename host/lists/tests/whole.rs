//! The list feeder against the published scanner and parser together, on YAML files.
use lists::FILES;
use oracle::{number_of, rust_run, Run};
use records::{tag_bytes, Settings};
use scan::events::View;
use scan::{scan, whole, Scan, Whole};

fn compare(name: &str, scanned: &Scan, run: &Run, whole: &Whole) {
    let text = scanned.text.as_bytes();
    assert_eq!(run.events.len(), whole.events.len(), "{name}: count of events");
    for (record, (event, span)) in run.events.iter().zip(&whole.events) {
        let view = View::from(event);
        let value = record.value.cut(text).expect("a value inside the text");
        let tag = view.tag.map(|(prefix, suffix)| (prefix.as_bytes(), suffix.as_bytes()));
        let numbers = [span.start.index(), span.end.index(), view.number].map(|n| n as u32);
        assert_eq!([record.start, record.end, record.number], numbers, "{name}: {event:?}");
        assert_eq!((record.kind, record.style), (view.kind, view.style), "{name}: {event:?}");
        assert_eq!(value, view.value.as_bytes(), "{name}: {event:?}");
        assert_eq!(tag_bytes(record, text, &run.side), tag, "{name}: {event:?}");
    }
}

/// The parser's own error has a number; at the scanner's the list ends.
fn compare_end(name: &str, scanned: &Scan, run: &Run, whole: &Whole) {
    match &whole.error {
        None => assert_eq!((run.number, run.place), (0, 0), "{name}"),
        Some((message, place)) => match number_of(message) {
            Some(number) => assert_eq!((run.number, run.place), (number, *place), "{name}"),
            None => {
                assert_eq!(scanned.error, whole.error, "{name}");
                assert_eq!(run.number, 14, "{name}");
            }
        },
    }
}

#[test]
fn the_feeder_gives_what_the_published_crate_gives() {
    for (name, yaml) in FILES {
        let scanned = scan(yaml);
        for settings in Settings::ALL {
            let run = rust_run(&scanned.list, scanned.text.as_bytes(), settings);
            let whole = whole(yaml, settings);
            compare(name, &scanned, &run, &whole);
            compare_end(name, &scanned, &run, &whole);
        }
    }
}

#[test]
fn the_files_are_many_sided() {
    let settings = Settings::default();
    let ends: Vec<Option<(String, u32)>> =
        FILES.iter().map(|(_, yaml)| whole(yaml, settings).error).collect();
    let count = |wanted: fn(&Option<u32>) -> bool| {
        let numbers = ends.iter().flatten().map(|(message, _)| number_of(message));
        numbers.filter(wanted).count()
    };
    assert!(ends.iter().filter(|end| end.is_none()).count() >= 25, "accepted files");
    assert!(count(Option::is_some) >= 8, "files that the parser refuses");
    assert!(count(Option::is_none) >= 2, "files that the scanner refuses");
}
