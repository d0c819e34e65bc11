//! The table as a file of definitions, in the layout of `rt fmt`.
use super::{rows, Row};
use records::kinds::{event::SCALAR, token_kind, Uses};
use records::{decode, Answer, Ev, Range, Settings, Tok};

const HEAD: &str = "\
-- Generated from the Rust's answers, in host/: cargo run --release --offline -p lists -- numbers > ../crates/rules/specs/Numbers.antt
-- A list for each number 0 to 14, and for each setting, tag source and style, with what the run answers and all events. Over
-- each the same in the notation of docs/DECISIONS.md.
use Rattle.std.specs.Prelude.{true, false, List, [], ◌∷◌}
use Rattle.rules.specs.Rules.{plain}
use Rattle.rules.specs.Starred.{Case, bare, styled, word, pair, valued, tag_on, whole}

unfoldable pub every_number : List Case
every_number =
";

const INDENT: &str = "    ";
/// Where a line is broken.
const WIDTH: usize = 120;

/// The file `crates/rules/specs/Numbers.antt`.
pub fn table() -> String {
    let entries = rows().enumerate().map(|(i, row)| entry(if i == 0 { "" } else { "∷ " }, &row));
    format!("{HEAD}{}{INDENT}∷ []\n", entries.collect::<String>())
}

fn entry(lead: &str, row: &Row) -> String {
    let Settings { keep, forget } = row.settings;
    let said = row.said();
    let Answer { number, count, place, .. } = said.answer;
    let settings = [" keep", " forget"].into_iter().zip([keep, forget]);
    let settings: String = settings.filter(|(_, on)| *on).map(|(word, _)| word).collect();
    let at = if number == 0 { String::new() } else { format!(" at {place}") };
    let tokens = chain(decode(&said.case.tokens).iter().map(token));
    let mut text = chain(said.case.text.iter().map(u8::to_string));
    text.push(format!("{number} {count} {place}"));
    let events = chain(said.events.iter().map(event));
    let mut lines = vec![
        format!("{INDENT}-- `{}`{settings} → {number} after {count}{at}", row.list),
        format!("{INDENT}{lead}whole {keep} {forget}"),
    ];
    lines.extend([tokens, text, events].iter().flat_map(|parts| filled(parts)));
    lines.iter().map(|line| format!("{line}\n")).collect()
}

/// A list, in parts that a line may end behind.
fn chain(items: impl Iterator<Item = String>) -> Vec<String> {
    let mut parts: Vec<String> = items.map(|item| format!("∷ {item}")).collect();
    match parts.first_mut() {
        Some(first) => *first = first.replacen("∷ ", "(", 1),
        None => return vec!["[]".to_owned()],
    }
    parts.push("∷ [])".to_owned());
    parts
}

/// Lines of as many parts as they hold.
fn filled(parts: &[String]) -> Vec<String> {
    let mut lines: Vec<String> = Vec::new();
    for part in parts {
        let fits = |line: &String| line.chars().count() + 1 + part.chars().count() <= WIDTH;
        match lines.last_mut().filter(|line| fits(line)) {
            Some(line) => *line += &format!(" {part}"),
            None => lines.push(format!("{INDENT}{part}")),
        }
    }
    lines
}

fn token(token: &Tok) -> String {
    let Tok { kind, start, end, a: Range { from, to }, b, style } = *token;
    match token_kind(kind).uses {
        Uses::Nothing => format!("bare {kind} {start} {end}"),
        Uses::Pair => {
            assert_eq!(to, b.from, "the texts of a token stand side by side");
            format!("pair {kind} {start} {end} {from} {to} {}", b.to)
        }
        Uses::Name | Uses::Value if style == 0 => format!("word {kind} {start} {end} {from} {to}"),
        Uses::Name | Uses::Value => format!("styled {kind} {start} {end} {from} {to} {style}"),
    }
}

fn event(event: &Ev) -> String {
    let Ev { kind, start, end, number, style, value, source, prefix, suffix } = *event;
    let bare = match (kind, style, value) {
        (_, 0, Range { from: 0, to: 0 }) => format!("plain {kind} {start} {end} {number}"),
        (SCALAR, ..) => {
            format!("valued {start} {end} {number} {style} {} {}", value.from, value.to)
        }
        _ => panic!("a value, but no Scalar: {event:?}"),
    };
    match source {
        0 => bare,
        _ => format!(
            "tag_on {source} {} {} {} {} ({bare})",
            prefix.from, prefix.to, suffix.from, suffix.to
        ),
    }
}
