//! The command `lists`: makes cases, answers them, shows and compares.
mod commands;
mod files;

use std::io::ErrorKind;
use std::process::ExitCode;

const HELP: &str = "\
Cases for the run of document 01 and the answers they must have.

  lists make --class CLASS [--seed S] [--count N] > CASES
        N cases of a class (default: seed 0, 1000 cases)
  lists answer < CASES > ANSWERS
        what the answers must be
  lists show < FILE
        cases and answers for people, one token or event a line
  lists diff ANSWERS ANSWERS CASES
        compares two answers to each case; ends with 1 if any differ
  lists fixture DIRECTORY
        writes the fixture, one file for each class
  lists letters
        lists a to l of document 01 with the Rust's answers, as the program lists_a_to_l writes its own
  lists numbers
        the table of crates/rules/specs/Numbers.antt: a list for each number 0 to 14 with the Rust's answer
  lists texts [--count N]
        short lists as YAML text with the Rust's answers, and N longer ones (default 40000), for tests/texts.py
  lists --help

tests/README.md describes the files. Classes:
";

fn help() -> String {
    let rows = lists::CLASSES.iter().map(|class| format!("  {:8} {}\n", class.name, class.about));
    rows.fold(HELP.to_owned(), |help, row| help + &row)
}

fn main() -> ExitCode {
    let words: Vec<String> = std::env::args().skip(1).collect();
    let words: Vec<&str> = words.iter().map(String::as_str).collect();
    let done = match words[..] {
        ["--help" | "-h" | "help"] => files::print(&help()).map(|()| ExitCode::SUCCESS),
        ["make", ref options @ ..] => commands::make(options),
        ["answer"] => commands::answer(),
        ["show"] => commands::show(),
        ["diff", left, right, cases] => commands::diff(left, right, cases),
        ["fixture", directory] => commands::fixture(directory),
        ["letters"] => files::print(&lists::letters()).map(|()| ExitCode::SUCCESS),
        ["numbers"] => files::print(&lists::numbers::table()).map(|()| ExitCode::SUCCESS),
        ["texts", ref options @ ..] => commands::texts(options),
        [] => Err(files::usage("no command given")),
        _ => Err(files::usage(&format!("not understood: {}", words.join(" ")))),
    };
    match done {
        Ok(code) => code,
        // A reader that has seen enough, such as `head`.
        Err(error) if error.kind() == ErrorKind::BrokenPipe => ExitCode::SUCCESS,
        Err(error) => {
            eprintln!("lists: {error}");
            ExitCode::from(2)
        }
    }
}
