//! The run: over memory that the caller lends, or over memory of its own.
use crate::event::Event;
use crate::face::{call, Lent};
use crate::refusal::Refusal;
use crate::rooms::{rooms, Rooms};
use records::decode_events;
use records::sizes::{words, ANSWER, EVENT, TOKEN};

/// The two settings. The default is YAML's own rule for both: names and `%TAG` directives end with their document.
#[derive(Clone, Copy, Debug, PartialEq, Eq, Hash)]
pub struct Settings {
    /// `%TAG` directives hold beyond their document.
    pub keep_tags: bool,
    /// Names are forgotten at each document's start, as the Rust's `load` does. Otherwise, as with the Rust's iterator,
    /// an alias may take an anchor that was left over from a document before.
    pub forget_anchors: bool,
}

impl Default for Settings {
    fn default() -> Settings {
        Settings { keep_tags: false, forget_anchors: true }
    }
}

/// What a run answers: the number (0: StreamEnd was given), how many events stand in the buffer, the place.
#[derive(Clone, Copy, Debug, PartialEq, Eq, Hash)]
pub struct Answer {
    pub number: u32,
    pub count: u32,
    pub place: u32,
}

impl Answer {
    /// Why the run ended before StreamEnd; none if it did not.
    pub fn refusal(&self) -> Option<Refusal> {
        Refusal::of(self.number, self.place)
    }
}

/// Runs a list over lent memory. Any bytes may be lent, of any length and with any contents. Nothing is allocated but a
/// copy of the text, and that only where list and text overlap.
///
/// Afterwards `count` event records stand at the start of `lent.events` and the bytes past them are as they were; the
/// work memory is all zero.
///
/// # Panics
/// Where the proved library is not part of the program (see [`crate::LINKED`]).
pub fn run_in(tokens: &[u8], text: &[u8], settings: Settings, lent: Lent) -> Answer {
    let mut answer = [0; ANSWER];
    let numbers = [settings.keep_tags, settings.forget_anchors].map(u32::from);
    call(tokens, text, numbers, lent, &mut answer);
    let [number, count, place] = words(&answer);
    Answer { number, count, place }
}

/// The events of a list, and the refusal where the list was not run to its StreamEnd.
#[derive(Clone, Debug, PartialEq, Eq)]
pub struct Run {
    /// With a refusal: those before it.
    pub events: Vec<Event>,
    pub refusal: Option<Refusal>,
}

impl Run {
    /// The events of an accepted list, else the refusal.
    ///
    /// # Errors
    /// The refusal.
    pub fn accepted(self) -> Result<Vec<Event>, Refusal> {
        self.refusal.map_or(Ok(self.events), Err)
    }
}

/// Runs a list over memory of its own, as much as [`rooms`] says; so 22 to 25 never come up.
///
/// # Panics
/// Where the proved library is not part of the program (see [`crate::LINKED`]).
pub fn run(tokens: &[u8], text: &[u8], settings: Settings) -> Run {
    // A list that is too long is answered by 26 before any memory is wanted.
    let none = Rooms { events: 0, states: 0, anchors: 0, handles: 0 };
    let room = rooms(tokens.len() / TOKEN).unwrap_or(none);
    let mut events = vec![0; room.events];
    let [mut states, mut anchors, mut handles] =
        [room.states, room.anchors, room.handles].map(|bytes| vec![0; bytes]);
    let lent = Lent {
        events: &mut events,
        states: &mut states,
        anchors: &mut anchors,
        handles: &mut handles,
    };
    let answer = run_in(tokens, text, settings, lent);
    let written = decode_events(&events[..answer.count as usize * EVENT]);
    let read = |record| Event::read(record).expect("the proved run stores event records only");
    Run { events: written.iter().map(read).collect(), refusal: answer.refusal() }
}
