//! Cases for the run of document 01, by class, deterministic by seed.
#![forbid(unsafe_code)]

mod class;
mod crossed;
mod damaged;
mod dress;
mod fixture;
mod grammar;
mod letters;
mod list;
mod long;
mod mutated;
pub mod named;
pub mod notation;
pub mod numbers;
mod real;
mod rng;
mod rooms;
mod short;
mod steered;
mod texts;
mod words;

pub use class::{class, Cases, Class, CLASSES};
pub use fixture::fixture;
pub use letters::letters;
pub use list::List;
pub use real::FILES;
pub use rng::Rng;
pub use texts::texts;
