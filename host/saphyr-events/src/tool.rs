//! The parts of the command.
pub mod commands;
pub mod help;
pub mod json;
pub mod notation;
pub mod options;
pub mod places;
pub mod refusals;
pub mod source;
pub mod stop;
