//! What the answer to a case must be: parser.rs of saphyr-parser 0.3.3, unchanged, behind a list feeder, and the first
//! checks read from document 01.
#![forbid(unsafe_code)]

extern crate alloc;

/// Named by parser.rs.
macro_rules! debug_print {
    ($($anything:tt)*) => {};
}

mod answer;
mod checks;
mod drive;
mod input;
mod messages;
mod reading;
mod recorder;
mod scanner;

#[rustfmt::skip]
#[allow(dead_code, unused_imports, unexpected_cfgs, clippy::all)]
#[path = "../../vendor/parser.rs"]
mod parser;

include!(concat!(env!("OUT_DIR"), "/noted.rs"));

pub use answer::{answer, answer_after};
pub use checks::first_checks;
pub use drive::{rust_needs, rust_rooms, rust_run, Job, Run};
use input::BufferedInput;
pub use messages::number_of;
pub use reading::Reading;
use scanner::Marker;
