//! The command `saphyr-events`: the events of a YAML file, by the scanner of saphyr-parser 0.3.3 and the proved machine.
mod tool;

use std::io::{self, Write};
use std::process::ExitCode;
use tool::options::{parse, Asked};
use tool::stop::Stop;

fn main() -> ExitCode {
    let words: Vec<_> = std::env::args_os().skip(1).collect();
    let done = match parse(&words) {
        Ok(Asked::Text(text)) => tool::commands::print(|out| out.write_all(text.as_bytes())),
        Ok(Asked::Job(job)) => tool::commands::perform(&job),
        Err(message) => Err(Stop::unable(&format!("{message} (saphyr-events --help)"))),
    };
    match done {
        Ok(()) => ExitCode::SUCCESS,
        Err(stop) => {
            // With standard error closed too there is nobody left to tell.
            let _ = writeln!(io::stderr(), "{}", stop.message);
            ExitCode::from(stop.code)
        }
    }
}
