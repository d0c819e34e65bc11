//! The proved run and parser.rs of saphyr-parser 0.3.3, unchanged, over the same lists, made to be measured: lists by
//! shape and size, and each side as one call. The command `speed` counts and times them (`docs/SPEED.md`).
#![forbid(unsafe_code)]

extern crate alloc;

/// Named by parser.rs.
macro_rules! debug_print {
    ($($anything:tt)*) => {};
}

mod agree;
mod input;
mod list;
mod scanner;
mod shapes;
mod sides;

#[rustfmt::skip]
#[allow(dead_code, unused_imports, unexpected_cfgs, clippy::all)]
#[path = "../../vendor/parser.rs"]
mod parser;

pub use agree::agree;
use input::BufferedInput;
pub use list::List;
pub use saphyr_events::{LINKED, MISSING};
use scanner::Marker;
pub use shapes::{Shape, SHAPES};
pub use sides::{Buffers, Side};
