//! The proved run beside the Rust: one list after another through both, every byte of the two answers compared. And the
//! proved walk beside one written by hand.
mod face;
mod growth;
mod mixtures;
mod sweep;
mod walk;
mod walks;

pub use face::call;
pub use mixtures::{mixtures, Mixed};
pub use saphyr_events::{LINKED, MISSING};
pub use sweep::{sweep, sweep_of, Difference, Tally};
pub use walk::walk;
pub use walks::{walks, Walked, CLASSES as WALKS};
