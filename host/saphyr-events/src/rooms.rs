//! The memory to lend, known in advance.
use records::sizes::{ANCHOR, EVENT, HANDLE, MAX_TOKENS, STATE};

/// Bytes to lend for a list.
#[derive(Clone, Copy, Debug, PartialEq, Eq)]
pub struct Rooms {
    pub events: usize,
    pub states: usize,
    pub anchors: usize,
    pub handles: usize,
}

impl Rooms {
    /// All four together.
    pub const fn total(self) -> usize {
        self.events + self.states + self.anchors + self.handles
    }
}

/// The bytes with which a list of `tokens` tokens is never answered 22 to 25, whatever the list, refused ones too: three
/// events for each token, and a place in each work memory for each token. Proved as `never_short` in
/// `crates/promises/proofs/Demand3.antt`. `include/saphyr_events.h` has the same as `SAPHYR_EVENTS_BYTES` and so on.
///
/// None above 65,536 tokens: the run answers such a list by 26 and needs no memory for it. A list of 0 tokens needs none
/// either. Less than this may do for a given list; the run then says which room was short, and what it wrote is a
/// beginning of the whole.
///
/// ```
/// let rooms = saphyr_events::rooms(100).unwrap();
/// assert_eq!(rooms.events, 14_400);
/// assert_eq!((rooms.states, rooms.anchors, rooms.handles), (800, 1_200, 1_600));
/// assert_eq!(rooms.total(), 18_000);
/// assert_eq!(saphyr_events::rooms(65_537), None);
/// ```
pub const fn rooms(tokens: usize) -> Option<Rooms> {
    if tokens > MAX_TOKENS {
        return None;
    }
    Some(Rooms {
        events: 3 * tokens * EVENT,
        states: tokens * STATE,
        anchors: tokens * ANCHOR,
        handles: tokens * HANDLE,
    })
}
