//! The command `beside`: runs lists through the proved run and the Rust and says where they differ.
mod options;
mod table;

use options::{parse, Asked, Options};
use std::io::{self, ErrorKind, Write};
use std::process::ExitCode;
use std::time::Instant;

fn main() -> ExitCode {
    let words: Vec<String> = std::env::args().skip(1).collect();
    let words: Vec<&str> = words.iter().map(String::as_str).collect();
    let done = match parse(&words) {
        Ok(Asked::Help) => print(&options::help()).map(|()| ExitCode::SUCCESS),
        Ok(Asked::Run(options)) => run(&options),
        Ok(Asked::Rooms(tokens)) => rooms(tokens),
        Ok(Asked::Walk(options)) => walk(&options),
        Err(message) => Err(io::Error::other(format!("{message} (beside --help)"))),
    };
    match done {
        Ok(code) => code,
        // A reader that has seen enough, such as `head`.
        Err(error) if error.kind() == ErrorKind::BrokenPipe => ExitCode::SUCCESS,
        Err(error) => {
            eprintln!("beside: {error}");
            ExitCode::from(2)
        }
    }
}

fn linked() -> io::Result<()> {
    match beside::LINKED {
        true => Ok(()),
        false => Err(io::Error::other(beside::MISSING)),
    }
}

fn rooms(tokens: usize) -> io::Result<ExitCode> {
    linked()?;
    let begun = Instant::now();
    match beside::mixtures(tokens) {
        Ok(mixed) => print(&table::mixed(&mixed))?,
        Err(words) => {
            print(&format!("not as stated: {words}"))?;
            return Ok(ExitCode::from(1));
        }
    }
    print(&format!("{:.1} seconds\n", begun.elapsed().as_secs_f64()))?;
    Ok(ExitCode::SUCCESS)
}

fn run(options: &Options) -> io::Result<ExitCode> {
    linked()?;
    let begun = Instant::now();
    let mut table = table::Table::default();
    print(&table::head())?;
    for class in options.classes() {
        let tally = beside::sweep(class, options.seed, options.count);
        let row = table.add(class, tally.expect("the options name classes"));
        print(&row)?;
    }
    print(&table.total())?;
    print(&format!("{:.1} seconds\n", begun.elapsed().as_secs_f64()))?;
    match table.lists() {
        0 => Err(io::Error::other("no list was compared: the listed classes end before this seed")),
        _ => Ok(ExitCode::from(u8::from(table.differ() > 0))),
    }
}

fn walk(options: &Options) -> io::Result<ExitCode> {
    linked()?;
    let begun = Instant::now();
    print(&table::walk_head())?;
    let mut differ = 0;
    for (class, make) in beside::WALKS {
        let walked = beside::walks(make, options.seed, options.count);
        differ += walked.differ;
        print(&table::walked(class, &walked))?;
    }
    print(&format!("{:.1} seconds\n", begun.elapsed().as_secs_f64()))?;
    match options.count {
        0 => Err(io::Error::other("no list was compared: --count is 0")),
        _ => Ok(ExitCode::from(u8::from(differ > 0))),
    }
}

fn print(text: &str) -> io::Result<()> {
    io::stdout().lock().write_all(text.as_bytes())
}
