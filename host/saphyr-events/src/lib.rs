//! YAML events from a token list: the event machine of saphyr-parser 0.3.3, ported to Rattle and proved, behind a safe
//! face. Any bytes may be given; every call ends with one answer.
//!
//! [`run`] lends the memory itself and gives events with their types; [`run_in`] works in memory that the caller lends,
//! and copies the text only where it overlaps the list; [`rooms`] says in advance how much memory is always enough.
//!
//! The crate links `libface.a`, which `tools/library.sh` writes in the top folder. It builds without it too; then every
//! run panics and names that command, and [`LINKED`] is false. The library is for x86-64: where the machine is not,
//! `tools/host.sh`, called as cargo, builds for it and runs what it built under an emulator.
//!
//! ```
//! use saphyr_events::{run, EventKind, Range, Settings, Style, Token, TokenList};
//!
//! let text = b"[a, &x b]";
//! let mut list = TokenList::new();
//! list.push(Token::StreamStart, 0, 0);
//! list.push(Token::FlowSequenceStart, 0, 1);
//! list.push(Token::Scalar { value: Range::new(1, 2), style: Style::Plain }, 1, 2);
//! list.push(Token::FlowEntry, 2, 3);
//! list.push(Token::Anchor { name: Range::new(5, 6) }, 4, 6);
//! list.push(Token::Scalar { value: Range::new(7, 8), style: Style::Plain }, 7, 8);
//! list.push(Token::FlowSequenceEnd, 8, 9);
//! list.push(Token::StreamEnd, 9, 9);
//!
//! let events = run(list.as_bytes(), text, Settings::default()).accepted()?;
//! let values: Vec<&str> = events.iter().filter_map(|event| event.value_str_in(text)).collect();
//! assert_eq!(values, ["a", "b"]);
//! assert_eq!(events[2].kind, EventKind::SequenceStart(Default::default()));
//! let anchor = events[4].node().and_then(|node| node.anchor).map(|id| id.get());
//! assert_eq!((anchor, events[4].span.start, events[4].span.end), (Some(1), 4, 8));
//!
//! // A list that ends too early keeps the events before its end.
//! let short = run(&list.as_bytes()[..3 * 32], text, Settings::default());
//! assert_eq!(short.events.len(), 4);
//! let refusal = short.refusal.expect("no StreamEnd");
//! assert_eq!(refusal.to_string(), "refused by 14: the token list ended before StreamEnd, at 2");
//! # Ok::<(), saphyr_events::Refusal>(())
//! ```
#![deny(missing_debug_implementations)]

mod event;
pub mod face;
mod refusal;
mod rooms;
mod run;
mod style;
mod token;

pub use event::{Event, EventKind, Node, Tag, TagSource};
pub use face::{Lent, LINKED, MISSING};
pub use records::sizes::{MAX_TEXT, MAX_TOKENS};
pub use records::Range;
pub use refusal::{Place, Reason, Refusal};
pub use rooms::{rooms, Rooms};
pub use run::{run, run_in, Answer, Run, Settings};
pub use style::Style;
pub use token::{Span, Token, TokenList};
