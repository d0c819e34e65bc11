//! The three commands.
use super::options::{Command, Job};
use super::places::{Places, Spot};
use super::refusals::{refused, scanner_error};
use super::source::Source;
use super::stop::Stop;
use super::{json, notation};
use records::{encode, Tok};
use saphyr_events::{rooms, run, Event, LINKED, MISSING};
use scan::Scan;
use std::io::{self, BufWriter, ErrorKind, Write};

pub fn perform(job: &Job) -> Result<(), Stop> {
    if job.command == Command::Events && !LINKED {
        return Err(Stop::unable(MISSING));
    }
    let source = Source::read(&job.input)?;
    let scanned = source.scan()?;
    match job.command {
        Command::Events => events(job, &source, &scanned),
        Command::Tokens => tokens(job, &source, &scanned),
        Command::Rooms => print_rooms(&source, &scanned),
    }
}

/// Writes to standard output. A reader that has seen enough, such as `head`, is no failure.
pub fn print(write: impl FnOnce(&mut dyn Write) -> io::Result<()>) -> Result<(), Stop> {
    let mut out = BufWriter::new(io::stdout().lock());
    match write(&mut out).and_then(|()| out.flush()) {
        Err(error) if error.kind() != ErrorKind::BrokenPipe => {
            Err(Stop::unable(&format!("standard output cannot be written: {error}")))
        }
        _ => {
            // What is left unwritten has nobody to read it; a second try at the end would fail again.
            let _ = out.into_parts();
            Ok(())
        }
    }
}

fn events(job: &Job, source: &Source, scanned: &Scan) -> Result<(), Stop> {
    let text = scanned.text.as_bytes();
    let run = run(&encode(&scanned.list), text, job.settings);
    let places = Places::new(&source.text);
    print(|out| {
        run.events
            .iter()
            .try_for_each(|event| writeln!(out, "{}", event_line(job, &places, event, text)))
    })?;
    if source.text.is_empty() {
        let _ = writeln!(io::stderr(), "{}: empty, a stream without a document", source.name);
    }
    refused(job.settings, source, scanned, run.refusal)
}

fn event_line(job: &Job, places: &Places, event: &Event, text: &[u8]) -> String {
    let spots = job.spans.then(|| [event.span.start, event.span.end].map(|at| places.spot(at)));
    match job.json {
        true => json::event(event, text, spots),
        false => spanned(spots, notation::event(event, text)),
    }
}

fn spanned(spots: Option<[Spot; 2]>, line: String) -> String {
    match spots {
        Some([start, end]) => {
            format!("{}:{}-{}:{} {line}", start.line, start.column, end.line, end.column)
        }
        None => line,
    }
}

fn tokens(job: &Job, source: &Source, scanned: &Scan) -> Result<(), Stop> {
    let places = Places::new(&source.text);
    let line = |token: &Tok| {
        let spots = job.spans.then(|| [token.start, token.end].map(|at| places.spot(at)));
        spanned(spots, notation::token(token, scanned.text.as_bytes()))
    };
    print(|out| scanned.list.iter().try_for_each(|token| writeln!(out, "{}", line(token))))?;
    scanner_error(source, scanned)
}

fn print_rooms(source: &Source, scanned: &Scan) -> Result<(), Stop> {
    let tokens = scanned.list.len();
    let room = rooms(tokens).expect("the limit was looked at");
    let rows = [
        ("tokens", tokens),
        ("bytes of events", room.events),
        ("bytes of open states", room.states),
        ("bytes of anchors", room.anchors),
        ("bytes of tag handles", room.handles),
        ("bytes in all", room.total()),
    ];
    print(|out| {
        rows.iter().try_for_each(|(name, number)| writeln!(out, "{name:20} {number:>10}"))
    })?;
    scanner_error(source, scanned)
}
