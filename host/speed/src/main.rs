//! The command `speed`: measures the proved run against parser.rs on the same lists.
mod count;
mod options;
mod plugin;
mod table;
mod time;

use count::Counter;
use options::{parse, Asked, Options};
use speed::{agree, Buffers, List, Shape, Side};
use std::io::{self, ErrorKind, Write};
use std::process::ExitCode;
use table::Row;

fn main() -> ExitCode {
    let words: Vec<String> = std::env::args().skip(1).collect();
    let words: Vec<&str> = words.iter().map(String::as_str).collect();
    let done = match parse(&words) {
        Ok(Asked::Help) => print(&options::help()),
        Ok(Asked::Measure(options)) => linked().and_then(|()| measure(&options)),
        Ok(Asked::List(shape, size)) => io::stdout().lock().write_all(&shape.list(size).frame()),
        Ok(Asked::One(side, times)) => linked().and_then(|()| one(side, times)),
        Err(message) => Err(io::Error::other(format!("{message} (speed --help)"))),
    };
    match done {
        Ok(()) => ExitCode::SUCCESS,
        // A reader that has seen enough, such as `head`.
        Err(error) if error.kind() == ErrorKind::BrokenPipe => ExitCode::SUCCESS,
        Err(error) => {
            eprintln!("speed: {error}");
            ExitCode::from(2)
        }
    }
}

fn linked() -> io::Result<()> {
    match speed::LINKED {
        true => Ok(()),
        false => Err(io::Error::other(speed::MISSING)),
    }
}

/// What is counted: a side over the list on the standard input.
fn one(side: Side, times: usize) -> io::Result<()> {
    let list = List::read(&mut io::stdin().lock())?;
    let mut buffers = Buffers::new(side.rooms(list.count()));
    (0..times).try_for_each(|_| side.run(list, &mut buffers)).map_err(io::Error::other)
}

fn measure(options: &Options) -> io::Result<()> {
    let counter = Counter::find().map_err(io::Error::other)?;
    print(&format!("Instructions for each token, by `{}`.\n\n{}", counter.about(), table::head()))?;
    let (mut growth, mut all) = (table::growth_head(), Vec::new());
    for shape in options.shapes() {
        let mut rows = Vec::new();
        for size in options.sizes(&shape) {
            let named = |words| io::Error::other(format!("{} {size}: {words}", shape.name));
            let row = measured(&counter, shape, *size).map_err(named)?;
            print(&row.line())?;
            rows.push(row);
        }
        growth.extend(rows.first().zip(rows.last()).map(|(first, last)| first.growth(last)));
        all.append(&mut rows);
    }
    print(&format!("\n{}", table::included(&all)))?;
    print(&format!("\nThe cost of a token of the longest list against the shortest.\n\n{growth}"))
}

fn measured(counter: &Counter, shape: Shape, size: usize) -> Result<Row, String> {
    let list = shape.list(size);
    let count = |side| counter.instructions(side, list);
    Ok(Row {
        shape,
        size,
        tokens: list.count(),
        events: agree(list)?,
        proved: count(Side::Proved)?,
        rust_owned: count(Side::RustOwned)?,
        rust_lean: count(Side::RustLean)?,
        feeder_owned: count(Side::FeederOwned)?,
        checks_and_zeroing: count(Side::ChecksAndZeroing)?,
        checks: count(Side::Checks)?,
        time: timed(counter, list)?,
    })
}

/// An emulator's time says nothing about the machine that it emulates.
fn timed(counter: &Counter, list: List) -> Result<Option<[f64; 2]>, String> {
    match counter {
        Counter::Emulator(..) => Ok(None),
        _ => time::ratios(list, Side::Proved, [Side::RustOwned, Side::RustLean]).map(Some),
    }
}

fn print(text: &str) -> io::Result<()> {
    io::stdout().lock().write_all(text.as_bytes())
}
