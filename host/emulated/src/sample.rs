//! How much the long tests take. Under an emulator all of it would take ten times as long and more, so there they take less,
//! and say so.
use crate::emulator;
use std::io::{self, Write};

/// How much of something a test takes: all, and what it takes under an emulator.
#[derive(Clone, Copy, Debug)]
pub struct Sample {
    test: &'static str,
    unit: &'static str,
    pub all: usize,
    pub less: usize,
}

/// Every list of up to so many tokens, in every mixture of rooms.
pub const ROOMS: Sample =
    Sample { test: "rooms", unit: "tokens in the longest lists", all: 6, less: 5 };

/// Lists of each class through the proved run and the Rust. Of a listed class there may be fewer.
pub const LISTS: Sample =
    Sample { test: "beside", unit: "lists of each class", all: 8_000, less: 5_000 };

/// Those of the class `long` among them, of up to 65,536 tokens: with one setting or two, not four.
pub const LIMITS: Sample =
    Sample { test: "beside", unit: "lists at the limits", all: 68, less: 23 };

/// Event lists of each class through the proved walk and the one by hand.
pub const WALKS: Sample =
    Sample { test: "walk", unit: "event lists of each class", all: 4_000, less: 1_000 };

/// YAML files, each with every setting, through the command `saphyr-events` and the published crate.
pub const FILES: Sample =
    Sample { test: "published", unit: "calls with the host's YAML files", all: 204, less: 68 };

/// Texts put together at random through the same.
pub const TEXTS: Sample =
    Sample { test: "published", unit: "calls with random texts", all: 1_000, less: 100 };

/// Shapes of `docs/SPEED.md` at their largest size.
pub const SHAPES: Sample =
    Sample { test: "shapes", unit: "shapes at their largest", all: 9, less: 3 };

impl Sample {
    /// How much is taken here. Where that is not all, a line says so.
    pub fn size(&self) -> usize {
        if emulator().is_none() {
            return self.all;
        }
        // Not by eprintln: of a test that passes the harness would keep it to itself. In one piece, and on a line of its own
        // behind the dots of tests that are done.
        let _ = io::stderr().write_all(format!("\n{}\n", self.line()).as_bytes());
        self.less
    }

    /// The same for what is gone through in order: each one is taken, or one of so many.
    pub fn step(&self) -> usize {
        self.all.div_ceil(self.size())
    }

    fn line(&self) -> String {
        let Sample { test, unit, all, less } = self;
        format!("under an emulator, {test}: {less} {unit}, not {all}")
    }
}

#[cfg(test)]
mod tests {
    use super::*;

    #[test]
    fn a_sample_is_said_in_words() {
        assert_eq!(ROOMS.line(), "under an emulator, rooms: 5 tokens in the longest lists, not 6");
    }

    /// What is gone through in steps is what the line says.
    #[test]
    fn steps_take_what_is_said() {
        for sample in [LIMITS, FILES, SHAPES] {
            let step = sample.all.div_ceil(sample.less);
            assert_eq!((0..sample.all).step_by(step).count(), sample.less, "{}", sample.line());
        }
    }
}
