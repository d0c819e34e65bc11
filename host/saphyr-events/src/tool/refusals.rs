//! What is said of a text that is refused.
use super::places::{printable, Places};
use super::source::Source;
use super::stop::Stop;
use records::kinds::{ALIAS, ANCHOR};
use records::Tok;
use saphyr_events::{Reason, Refusal, Settings};
use scan::Scan;

/// The scanner's error where the run came to the end of its tokens, else the machine's refusal.
pub fn refused(
    settings: Settings,
    source: &Source,
    scanned: &Scan,
    refusal: Option<Refusal>,
) -> Result<(), Stop> {
    let Some(refusal) = refusal else { return Ok(()) };
    if refusal.reason == Reason::ListEnded {
        scanner_error(source, scanned)?;
    }
    let Some(position) = refusal.position() else {
        return Err(Stop::refused(format!("{}: {refusal}", source.name)));
    };
    let reason = refusal.reason;
    let words = format!("refused by {}: {}", reason.number(), reason.sentence());
    let mut stop = source.refused_at(position, &words);
    if settings.forget_anchors {
        stop.message += &left_over(source, scanned, &refusal).unwrap_or_default();
    }
    Err(stop)
}

pub fn scanner_error(source: &Source, scanned: &Scan) -> Result<(), Stop> {
    match &scanned.error {
        Some((words, position)) => {
            Err(source.refused_at(*position, &format!("refused by the scanner: {words}")))
        }
        None => Ok(()),
    }
}

/// With forgetting, an anchor of the alias's name that stands before it is one of an earlier document: this is said.
fn left_over(source: &Source, scanned: &Scan, refusal: &Refusal) -> Option<String> {
    let position = refusal.position().filter(|_| refusal.reason == Reason::NoSuchAnchor)?;
    let text = scanned.text.as_bytes();
    let names = |token: &Tok, kind| (token.kind == kind).then(|| token.a.cut(text)).flatten();
    let list = &scanned.list;
    let alias = list.iter().position(|token| token.kind == ALIAS && token.start == position)?;
    let name = names(&list[alias], ALIAS)?;
    let anchor = list[..alias].iter().rfind(|token| names(token, ANCHOR) == Some(name))?;
    let spot = Places::new(&source.text).spot(anchor.start);
    let name: String = String::from_utf8_lossy(name).chars().map(printable).collect();
    Some(format!(
        "\n  &{name} at {} belongs to an earlier document; --keep-anchors would take it",
        source.at(spot)
    ))
}
