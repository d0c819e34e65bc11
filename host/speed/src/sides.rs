//! The sides that are measured, each as one call over a list.
use crate::input::{Input, Lean, Owned};
use crate::list::List;
use crate::parser::Parser;
use crate::scanner::Scanner;
use records::sizes::{word, ANSWER};
use records::Rooms;
use saphyr_events::face::{call, Lent};
use std::hint::black_box;

/// What is run over a list. Names are forgotten nowhere and directives end with their document.
#[derive(Clone, Copy, PartialEq, Eq, Debug)]
pub enum Side {
    /// One call of `saphyr_run`.
    Proved,
    /// parser.rs behind a feeder whose texts are Strings, as the published scanner's are.
    RustOwned,
    /// The same behind one whose texts are borrowed.
    RustLean,
    /// The first of the two feeders alone.
    FeederOwned,
    /// A call of `saphyr_run` with no place for the first event: first checks and zeroing, and one step.
    ChecksAndZeroing,
    /// The same without any work memory: there is nothing to zero.
    Checks,
}

impl Side {
    pub const ALL: [Side; 6] = [
        Side::Proved,
        Side::RustOwned,
        Side::RustLean,
        Side::FeederOwned,
        Side::ChecksAndZeroing,
        Side::Checks,
    ];

    /// Under which a counted program is asked for it.
    pub fn name(self) -> &'static str {
        self.words().0
    }

    pub fn about(self) -> &'static str {
        self.words().1
    }

    fn words(self) -> (&'static str, &'static str) {
        match self {
            Side::Proved => ("proved", "one call of saphyr_run"),
            Side::RustOwned => ("rust-owned", "parser.rs behind a feeder whose texts are Strings"),
            Side::RustLean => ("rust-lean", "parser.rs behind a feeder whose texts are borrowed"),
            Side::FeederOwned => ("feeder-owned", "the first feeder alone"),
            Side::ChecksAndZeroing => {
                ("checks-and-zeroing", "saphyr_run with no place for an event")
            }
            Side::Checks => ("checks", "saphyr_run with no memory at all"),
        }
    }

    /// The memory that it is lent, for a list of so many tokens.
    pub fn rooms(self, tokens: usize) -> Rooms {
        match self {
            Side::Proved => Rooms::for_tokens(tokens),
            Side::ChecksAndZeroing => Rooms { events: 0, ..Rooms::for_tokens(tokens) },
            _ => Rooms::from_counts([0; 4]),
        }
    }

    /// One run.
    ///
    /// # Errors
    /// The side's own words where it does not end as it should.
    pub fn run(self, list: List, buffers: &mut Buffers) -> Result<(), String> {
        match self {
            Side::Proved => answered(proved(list, buffers), 0),
            Side::ChecksAndZeroing | Side::Checks => answered(proved(list, buffers), 22),
            Side::RustOwned => rust(Owned(list)),
            Side::RustLean => rust(Lean(list)),
            Side::FeederOwned => {
                feed(Owned(list));
                Ok(())
            }
        }
    }
}

/// The memory lent to the proved run, allocated once.
#[derive(Debug)]
pub struct Buffers {
    bytes: [Vec<u8>; 4],
    answer: [u8; ANSWER],
}

impl Buffers {
    pub fn new(rooms: Rooms) -> Buffers {
        let counts = rooms.counts();
        let bytes = std::array::from_fn(|i| vec![0; counts[i] * Rooms::SIZES[i]]);
        Buffers { bytes, answer: [0; ANSWER] }
    }

    /// The bytes of the events that the last run wrote.
    pub fn events(&self) -> &[u8] {
        &self.bytes[0][..word(&self.answer, 4) as usize * Rooms::SIZES[0]]
    }
}

fn proved(list: List, buffers: &mut Buffers) -> u32 {
    let [events, states, anchors, handles] = &mut buffers.bytes;
    let lent = Lent { events, states, anchors, handles };
    call(list.tokens, list.text.as_bytes(), [0, 0], lent, &mut buffers.answer)
}

fn answered(number: u32, expected: u32) -> Result<(), String> {
    match number == expected {
        true => Ok(()),
        false => Err(format!("the proved run answers {number}, not {expected}")),
    }
}

/// Each event is made whole, looked at where it stands, and dropped.
fn rust(input: impl Input) -> Result<(), String> {
    let mut parser = Parser::new(input);
    while let Some(step) = &parser.next_event() {
        match step {
            Ok(given) => black_box(given),
            Err(error) => return Err(format!("parser.rs: {error}")),
        };
    }
    Ok(())
}

/// Each token is handed over, looked at where it stands, and dropped.
fn feed(input: impl Input) {
    let mut scanner = Scanner::new(input);
    while let Some(token) = &scanner.next() {
        black_box(token);
    }
}
