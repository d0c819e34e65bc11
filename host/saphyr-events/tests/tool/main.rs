//! The command `saphyr-events`, called as a person calls it.
mod call;
mod events;
mod messages;
mod others;
mod published;
mod readme;
