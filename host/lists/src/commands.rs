//! What each command does.
use crate::files::{about, print, usage, Frames};
use records::{difference, show_answer, show_case, Frame};
use std::fs;
use std::io::{self, BufWriter, Write};
use std::path::Path;
use std::process::ExitCode;

/// How many differences `diff` prints; it counts all.
const PRINTED: usize = 10;

pub fn make(options: &[&str]) -> io::Result<ExitCode> {
    let (mut name, mut seed, mut count) = (None, 0, 1_000);
    for option in options.chunks(2) {
        match *option {
            ["--class", value] => name = Some(value),
            ["--seed", value] => seed = number(value)?,
            ["--count", value] => count = number(value)? as usize,
            _ => return Err(usage(&format!("not understood: {}", option.join(" ")))),
        }
    }
    let name = name.ok_or_else(|| usage("make needs --class"))?;
    let unknown = || usage(&format!("there is no class {name}"));
    let cases = lists::class(name, seed, count).ok_or_else(unknown)?;
    let mut out = BufWriter::new(io::stdout().lock());
    for case in cases {
        let mut bytes = Vec::new();
        case.put(&mut bytes);
        out.write_all(&bytes)?;
    }
    out.flush()?;
    Ok(ExitCode::SUCCESS)
}

fn number(word: &str) -> io::Result<u64> {
    word.parse().map_err(|_| usage(&format!("not a number: {word}")))
}

pub fn answer() -> io::Result<ExitCode> {
    let mut input = Frames::standard();
    let mut out = BufWriter::new(io::stdout().lock());
    let mut failed = 0;
    while let Some(case) = input.next_case()? {
        let answer = oracle::answer(&case);
        failed += usize::from(answer.failed());
        let mut bytes = Vec::new();
        answer.put(&mut bytes);
        out.write_all(&bytes)?;
    }
    out.flush()?;
    match failed {
        0 => Ok(ExitCode::SUCCESS),
        _ => Err(io::Error::other(format!("the Rust failed on {failed} cases"))),
    }
}

pub fn show() -> io::Result<ExitCode> {
    let mut input = Frames::standard();
    let mut text = Vec::new();
    let mut shown = 0;
    while let Some(frame) = input.next()? {
        shown += 1;
        match frame {
            Frame::Case(case) => {
                print(&show_case(&case))?;
                text = case.text;
            }
            Frame::Answer(answer) => print(&show_answer(&answer, &text))?,
        }
    }
    if shown == 0 {
        print("nothing: the input is empty\n")?;
    }
    Ok(ExitCode::SUCCESS)
}

pub fn diff(left: &str, right: &str, cases: &str) -> io::Result<ExitCode> {
    let (mut left, mut right) = (Frames::open(left)?, Frames::open(right)?);
    let mut cases = Frames::open(cases)?;
    let (mut compared, mut differ) = (0, 0);
    while let Some(case) = cases.next_case()? {
        let l = left.next_answer()?.ok_or_else(|| left.mismatch("no answer to this case"))?;
        let r = right.next_answer()?.ok_or_else(|| right.mismatch("no answer to this case"))?;
        if let Some(words) = difference(&case, &l, &r) {
            differ += 1;
            if differ <= PRINTED {
                let answers = [show_answer(&l, &case.text), show_answer(&r, &case.text)];
                print(&format!(
                    "case {compared}: {words}\n{}{}",
                    show_case(&case),
                    answers.concat()
                ))?;
            }
        }
        compared += 1;
    }
    for side in [&mut left, &mut right] {
        if side.next()?.is_some() {
            return Err(side.mismatch("more answers than cases"));
        }
    }
    print(&format!("{compared} answers compared, {differ} differ\n"))?;
    Ok(ExitCode::from(u8::from(differ > 0)))
}

pub fn fixture(directory: &str) -> io::Result<ExitCode> {
    fs::create_dir_all(directory).map_err(|error| about(directory, &error))?;
    for (class, bytes) in lists::fixture() {
        let path = Path::new(directory).join(class).with_extension("bin");
        fs::write(&path, &bytes).map_err(|error| about(&path.display().to_string(), &error))?;
    }
    Ok(ExitCode::SUCCESS)
}

pub fn texts(options: &[&str]) -> io::Result<ExitCode> {
    let count = match *options {
        [] => 40_000,
        ["--count", value] => number(value)?,
        _ => return Err(usage(&format!("not understood: {}", options.join(" ")))),
    };
    let mut out = BufWriter::new(io::stdout().lock());
    lists::texts(count, &mut out)?;
    out.flush()?;
    Ok(ExitCode::SUCCESS)
}
