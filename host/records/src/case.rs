//! One call of the run: what is lent to it.
use crate::sizes::{length, ANCHOR, ANSWER, EVENT, HANDLE, STATE};
use crate::token::{encode, Tok};

/// Numbers of places in the four buffers.
#[derive(Clone, Copy, PartialEq, Eq, Debug)]
pub struct Rooms {
    pub events: usize,
    pub states: usize,
    pub anchors: usize,
    pub handles: usize,
}

impl Rooms {
    /// More than any list can need.
    pub const ENDLESS: Rooms =
        Rooms { events: usize::MAX, states: usize::MAX, anchors: usize::MAX, handles: usize::MAX };
    /// Bytes of a place, in the order of the fields.
    pub const SIZES: [usize; 4] = [EVENT, STATE, ANCHOR, HANDLE];

    /// What never runs short for a list of `tokens`: 3T events and T places of each work memory.
    pub fn for_tokens(tokens: usize) -> Rooms {
        Rooms { events: 3 * tokens, states: tokens, anchors: tokens, handles: tokens }
    }

    pub fn counts(self) -> [usize; 4] {
        [self.events, self.states, self.anchors, self.handles]
    }

    pub fn from_counts([events, states, anchors, handles]: [usize; 4]) -> Rooms {
        Rooms { events, states, anchors, handles }
    }
}

/// The two settings, as on or off.
#[derive(Clone, Copy, PartialEq, Eq, Debug, Default)]
pub struct Settings {
    pub keep: bool,
    pub forget: bool,
}

impl Settings {
    pub const ALL: [Settings; 4] = [
        Settings { keep: false, forget: false },
        Settings { keep: false, forget: true },
        Settings { keep: true, forget: false },
        Settings { keep: true, forget: true },
    ];
}

/// One call: settings as given, lengths of the lent buffers in bytes, the byte they are filled with before the call.
#[derive(Clone, Debug, Default, PartialEq, Eq)]
pub struct Case {
    pub keep: u32,
    pub forget: u32,
    pub events_len: u32,
    pub states_len: u32,
    pub anchors_len: u32,
    pub handles_len: u32,
    pub answer_len: u32,
    pub fill: u32,
    pub tokens: Vec<u8>,
    pub text: Vec<u8>,
}

impl Case {
    /// A fill that is neither zero nor a byte of any small number.
    pub const FILL: u32 = 0xA5;

    /// A list with room enough and an answer buffer of 12 bytes.
    pub fn roomy(list: &[Tok], text: &[u8], settings: Settings) -> Case {
        let case = Case {
            keep: u32::from(settings.keep),
            forget: u32::from(settings.forget),
            answer_len: length(ANSWER),
            fill: Case::FILL,
            tokens: encode(list),
            text: text.to_vec(),
            ..Case::default()
        };
        case.with_rooms(Rooms::for_tokens(list.len()))
    }

    /// The same call with buffers of exactly these places.
    pub fn with_rooms(self, rooms: Rooms) -> Case {
        let counts = rooms.counts();
        self.with_lengths(std::array::from_fn(|i| length(counts[i] * Rooms::SIZES[i])))
    }

    /// The same call with buffers of these bytes.
    pub fn with_lengths(
        self,
        [events_len, states_len, anchors_len, handles_len]: [u32; 4],
    ) -> Case {
        Case { events_len, states_len, anchors_len, handles_len, ..self }
    }

    /// Bytes of the four buffers, in the order of the fields of `Rooms`.
    pub fn lengths(&self) -> [u32; 4] {
        [self.events_len, self.states_len, self.anchors_len, self.handles_len]
    }

    /// Places of the four buffers: bytes divided by the size of a place, rounded down.
    pub fn rooms(&self) -> Rooms {
        let lengths = self.lengths();
        Rooms::from_counts(std::array::from_fn(|i| lengths[i] as usize / Rooms::SIZES[i]))
    }

    pub fn settings(&self) -> Settings {
        Settings { keep: self.keep != 0, forget: self.forget != 0 }
    }
}
