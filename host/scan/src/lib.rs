//! saphyr-parser 0.3.3 as published (`vendor/`, unchanged): its types, its scanner as a maker of token lists, and
//! scanner and parser together.
#![forbid(unsafe_code)]

extern crate alloc;

/// Named by the published sources; the crate's own prints nothing either unless a feature is on.
macro_rules! debug_print {
    ($($anything:tt)*) => {};
}

include!(concat!(env!("OUT_DIR"), "/tree/tree.rs"));

pub mod events;
mod list;
pub mod tokens;
mod whole;

use input::BufferedInput;
pub use list::{scan, scan_first, Scan};
use scanner::Marker;
pub use whole::{whole, Whole};
