//! The records of document 01, and the framing of cases and answers that `tests/README.md` describes.
#![forbid(unsafe_code)]

mod answer;
mod case;
mod compare;
mod event;
mod frame;
pub mod kinds;
mod show;
pub mod sizes;
mod token;

pub use answer::{failure, flag, Answer, Lent};
pub use case::{Case, Rooms, Settings};
pub use compare::{difference, event_difference, tag_bytes};
pub use event::{decode_events, encode_events, Ev, SIDE};
pub use frame::{read_frame, Frame};
pub use show::{show_answer, show_case, show_event, show_token};
pub use token::{decode, encode, Range, Tok};
