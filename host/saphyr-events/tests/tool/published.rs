//! The command beside the published scanner and parser together: every YAML file of the host with every setting, and texts
//! put together at random. The lines are made here from the published crate's own events, lines and columns.
use crate::call::{tool_fed, Given};
use emulated::sample;
use lists::FILES;
use oracle::number_of;
use records::kinds::event as kinds;
use records::Settings;
use saphyr_events::Reason;
use scan::events::View;
use scan::scanner::Span;
use scan::{scan, whole, Whole};

fn escaped(text: &str) -> String {
    let pairs = [
        ("\\", "\\\\"),
        ("\n", "\\n"),
        ("\t", "\\t"),
        ("\r", "\\r"),
        ("\0", "\\0"),
        ("\u{8}", "\\b"),
    ];
    pairs.iter().fold(text.to_owned(), |text, (from, to)| text.replace(from, to))
}

fn line(view: &View, span: &Span) -> String {
    let mut properties = match view.number {
        0 => String::new(),
        id => format!(" &{id}"),
    };
    if let Some((prefix, suffix)) = view.tag {
        properties += &format!(" <{}>", escaped(&format!("{prefix}{suffix}")));
    }
    let words = match view.kind {
        kinds::STREAM_START => "+STR".to_owned(),
        kinds::STREAM_END => "-STR".to_owned(),
        kinds::DOCUMENT_START => ["+DOC", "+DOC ---"][view.number].to_owned(),
        kinds::DOCUMENT_END => "-DOC".to_owned(),
        kinds::ALIAS => format!("=ALI *{}", view.number),
        kinds::SCALAR => {
            let mark = [":", "'", "\"", "|", ">"][view.style as usize];
            format!("=VAL{properties} {mark}{}", escaped(view.value))
        }
        kinds::SEQUENCE_START => format!("+SEQ{properties}"),
        kinds::SEQUENCE_END => "-SEQ".to_owned(),
        kinds::MAPPING_START => format!("+MAP{properties}"),
        kinds::MAPPING_END => "-MAP".to_owned(),
        other => panic!("no kind of event: {other}"),
    };
    let (start, end) = (span.start, span.end);
    format!("{}:{}-{}:{} {words}\n", start.line(), start.col() + 1, end.line(), end.col() + 1)
}

fn expected(published: &Whole) -> String {
    published.events.iter().map(|(event, span)| line(&View::from(event), span)).collect()
}

/// What stands behind the place in the first line of a refusal. The scanner and the parser have one message in common, so
/// the scanner is asked for itself.
fn words(yaml: &str, published: &Whole) -> Option<String> {
    let (message, _) = published.error.as_ref()?;
    let reason = number_of(message).and_then(Reason::of);
    Some(match reason.filter(|_| scan(yaml).error != published.error) {
        Some(reason) => format!("refused by {}: {}", reason.number(), reason.sentence()),
        None => format!("refused by the scanner: {message}"),
    })
}

fn called(yaml: &str, settings: Settings) -> Given {
    let mut options = vec!["events", "--spans", "-"];
    options.push(if settings.forget { "--forget" } else { "--keep-anchors" });
    options.extend(settings.keep.then_some("--keep-tags"));
    tool_fed(&options, yaml.as_bytes())
}

/// Line and column of a character, both from 1, and a byte order mark at the start of a line not counted.
fn spot(text: &str, index: u32) -> String {
    let before: String = text.chars().take(index as usize).collect();
    let before = before.replace("\r\n", "\n");
    let line = before.rsplit('\n').next().expect("a last line");
    let column = line.trim_start_matches('\u{feff}').chars().count() + 1;
    format!("{}:{column}", before.matches('\n').count() + 1)
}

/// Whether the text was refused; the two agree on it, on every event and on the place.
fn agreed(yaml: &str, settings: Settings) -> bool {
    let (given, published) = (called(yaml, settings), whole(yaml, settings));
    assert_eq!(given.out, expected(&published), "{yaml:?} {settings:?}");
    let words = words(yaml, &published);
    assert_eq!(given.code, i32::from(words.is_some()), "{yaml:?} {settings:?}");
    if let (Some(words), Some((_, index))) = (&words, &published.error) {
        let begun = format!("standard input:{}: {words}", spot(yaml, *index));
        assert!(given.err.starts_with(&begun), "{yaml:?} {settings:?}: {begun} / {}", given.err);
    }
    words.is_some()
}

#[test]
fn the_command_prints_what_the_published_crate_gives() {
    let all = FILES.iter().flat_map(|(_, yaml)| Settings::ALL.map(|settings| (yaml, settings)));
    let all: Vec<_> = all.collect();
    assert_eq!(all.len(), sample::FILES.all);
    let taken: Vec<_> = all.into_iter().step_by(sample::FILES.step()).collect();
    let refused = taken.iter().filter(|(yaml, settings)| agreed(yaml, *settings)).count();
    assert!(refused > taken.len() / 4, "only {refused} refusals");
}

const PIECES: [&str; 32] = [
    "- ",
    "a: ",
    "b",
    "\n",
    "\n",
    "\n  ",
    " ",
    "[",
    "]",
    "{",
    "}",
    ", ",
    "&x ",
    "*x ",
    "!t ",
    "!!str ",
    "'q'",
    "\"d\\n\"",
    "|\n  l\n",
    ">\n  f\n",
    "---\n",
    "--- ",
    "...\n",
    "# c\n",
    "? ",
    ": ",
    "\n%TAG !e! p:\n---\n",
    "!e!s ",
    "\u{e9}",
    "\t",
    "\r\n",
    "\n\u{feff}",
];

/// Pieces drawn by a small generator (xorshift), the same for a seed on every machine. The line is ended, because the
/// published scanner counts one line more at the end of a text whose last line is not.
fn drawn(seed: u64) -> String {
    let mut state = seed.wrapping_mul(0x9E37_79B9_7F4A_7C15) | 1;
    let mut next = |below: u64| {
        state ^= state << 13;
        state ^= state >> 7;
        state ^= state << 17;
        (state >> 16) % below
    };
    let length = 1 + next(14);
    let text: String = (0..length).map(|_| PIECES[next(PIECES.len() as u64) as usize]).collect();
    text + "\n"
}

#[test]
fn so_it_does_for_texts_put_together_at_random() {
    let texts = sample::TEXTS.size();
    let all = (0..texts).map(|seed| (drawn(seed as u64), Settings::ALL[seed % 4]));
    let refused = all.filter(|(yaml, settings)| agreed(yaml, *settings)).count();
    assert!((texts / 10..texts - texts / 10).contains(&refused), "{refused} refusals");
}
