//! Instructions of one run of a side over a list: this program is run under a counter with one run and with three, and
//! half of the difference is that of a run that finds its memory as a run before left it.
use crate::plugin::Plugin;
use speed::{List, Side};
use std::env;
use std::ffi::OsString;
use std::io::Write;
use std::process::{Command, Output, Stdio};

/// What counts. All three count every instruction of the program and its libraries, and nothing of the kernel.
#[derive(Debug)]
pub enum Counter {
    /// The processor's own counter.
    Perf,
    Valgrind,
    /// On a machine that is not x86-64: the emulator that runs this program too, with a plugin.
    Emulator(OsString, Plugin),
}

/// Else the libraries fill and copy with one instruction for any length, which valgrind counts once for each byte.
const TUNABLES: &str =
    "glibc.cpu.x86_rep_stosb_threshold=1000000000:glibc.cpu.x86_rep_movsb_threshold=1000000000";

const MISSING: &str =
    "nothing counts instructions here: perf does not, and there is no valgrind (Debian package \
    valgrind)";

impl Counter {
    pub fn find() -> Result<Counter, String> {
        if let Some(emulator) = emulated::emulator() {
            return Ok(Counter::Emulator(emulator, Plugin::make()?));
        }
        let counts = |counter: &Counter| counter.count(&["true".into()], &[]).is_ok();
        let found = [Counter::Perf, Counter::Valgrind].into_iter().find(counts);
        found.ok_or_else(|| MISSING.to_owned())
    }

    /// What the tables say about it.
    pub fn about(&self) -> &'static str {
        match self {
            Counter::Perf => "perf stat -e instructions:u",
            Counter::Valgrind => "valgrind --tool=cachegrind --cache-sim=no",
            Counter::Emulator(..) => "qemu-x86_64 -plugin count.so",
        }
    }

    /// The instructions of one run.
    pub fn instructions(&self, side: Side, list: List) -> Result<u64, String> {
        let program = env::current_exe().map_err(|error| error.to_string())?;
        let frame = list.frame();
        let count = |times: &str| {
            let words = [program.clone().into(), "one".into(), side.name().into(), times.into()];
            self.count(&words, &frame)
        };
        let (once, thrice) = (count("1")?, count("3")?);
        Ok(thrice.saturating_sub(once) / 2)
    }

    /// The instructions of a program with its input.
    fn count(&self, words: &[OsString], input: &[u8]) -> Result<u64, String> {
        let mut command = self.command();
        command.args(words).env("GLIBC_TUNABLES", TUNABLES);
        let output = run(command, input)?;
        let said = String::from_utf8_lossy(&output.stderr);
        match (output.status.success(), self.read(&said)) {
            (true, Some(count)) => Ok(count),
            _ => Err(format!("{} does not count:\n{said}", self.about())),
        }
    }

    fn command(&self) -> Command {
        let (name, options): (OsString, Vec<OsString>) = match self {
            Counter::Perf => ("perf".into(), words("stat -x, -e instructions:u --")),
            Counter::Valgrind => (
                "valgrind".into(),
                words("--tool=cachegrind --cache-sim=no --cachegrind-out-file=/dev/null"),
            ),
            Counter::Emulator(name, plugin) => {
                let mut options = words("-d plugin -plugin");
                options.push(plugin.library().into());
                (name.clone(), options)
            }
        };
        let mut command = Command::new(name);
        command.args(options);
        command
    }

    /// The number in what the counter says: perf's first field, valgrind's `I refs: 1,234`, the plugin's line.
    fn read(&self, said: &str) -> Option<u64> {
        let number = |word: &str| word.replace(',', "").parse().ok();
        match self {
            Counter::Perf => said.lines().find_map(|line| number(line.split(',').next()?)),
            Counter::Valgrind => {
                let line =
                    said.lines().find(|line| line.contains("I ") && line.contains("refs:"))?;
                number(line.split_whitespace().last()?)
            }
            Counter::Emulator(..) => {
                said.lines().find_map(|line| number(line.strip_prefix("instructions ")?))
            }
        }
    }
}

fn words(line: &str) -> Vec<OsString> {
    line.split(' ').map(OsString::from).collect()
}

fn run(mut command: Command, input: &[u8]) -> Result<Output, String> {
    let name = command.get_program().to_string_lossy().into_owned();
    let failed = |error| format!("{name}: {error}");
    command.stdin(Stdio::piped()).stdout(Stdio::null()).stderr(Stdio::piped());
    let mut child = command.spawn().map_err(failed)?;
    let mut pipe = child.stdin.take().expect("it was asked for");
    // A program that ends before it has read all says why itself.
    let _ = pipe.write_all(input);
    drop(pipe);
    child.wait_with_output().map_err(failed)
}
