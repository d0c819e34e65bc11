//! Why a run ended before StreamEnd, and where.
use std::error::Error;
use std::fmt::{self, Display, Formatter};

/// One list of the numbers, so that none is forgotten in one place.
macro_rules! reasons {
    ($($name:ident = $number:literal, $sentence:literal;)*) => {
        /// The numbers of a refusal. 0 is none: StreamEnd was given. 28 cannot come up: the answer has its room here.
        #[derive(Clone, Copy, Debug, PartialEq, Eq, Hash, PartialOrd, Ord)]
        pub enum Reason {
            $(#[doc = $sentence] $name = $number,)*
        }

        impl Reason {
            /// All of them, by number.
            pub const ALL: &'static [Reason] = &[$(Reason::$name),*];

            /// What is wrong, in a sentence without its place.
            pub fn sentence(self) -> &'static str {
                match self {
                    $(Reason::$name => $sentence,)*
                }
            }
        }
    };
}

reasons! {
    StreamStartExpected = 1, "the first token is not StreamStart";
    DocumentStartExpected = 2, "a document start (---) is expected here";
    SecondVersion = 3, "a second %YAML directive in one document";
    HandleTwice = 4, "a second %TAG directive for the same handle in one document";
    MarkInside = 5, "a byte order mark inside a document";
    DirectiveInside = 6, "a directive after a document without its end marker (...)";
    NoSuchAnchor = 7, "an alias with no such anchor";
    ContentExpected = 8, "the content of a node is expected here";
    KeyExpected = 9, "a key of the block mapping is expected here";
    FlowMappingOpen = 10, "',' or '}' of the flow mapping is expected here";
    FlowSequenceOpen = 11, "',' or ']' of the flow sequence is expected here";
    EntryExpected = 12, "'-' of the block sequence is expected here";
    HandleUndeclared = 13, "a tag whose handle no %TAG directive declares";
    ListEnded = 14, "the token list ended before StreamEnd";
    OddLength = 20, "the token list is no multiple of 32 bytes long";
    BadRecord = 21, "a token record with a bad kind, style or range";
    NoEventPlace = 22, "no place left for an event";
    NoStatePlace = 23, "no place left for an open state";
    NoAnchorPlace = 24, "no place left for an anchor";
    NoHandlePlace = 25, "no place left for a tag handle";
    TooManyTokens = 26, "more than 65,536 tokens";
    TooMuchText = 27, "more than 16,777,216 bytes of text";
}

impl Reason {
    /// The number of document 01 and of the C header.
    pub const fn number(self) -> u32 {
        self as u32
    }

    /// The reason behind a number; none for 0, for 28 and for what is no number of the run.
    pub fn of(number: u32) -> Option<Reason> {
        Reason::ALL.iter().copied().find(|reason| reason.number() == number)
    }
}

/// Where a refusal stands.
#[derive(Clone, Copy, Debug, PartialEq, Eq, Hash)]
pub enum Place {
    /// Numbers 1 to 14: a position, in what the tokens count.
    Position(u32),
    /// Number 21: the index of the first bad record.
    Record(u32),
    /// The others are about the list as a whole.
    None,
}

/// The end of a run before StreamEnd.
#[derive(Clone, Copy, Debug, PartialEq, Eq, Hash)]
pub struct Refusal {
    pub reason: Reason,
    pub place: Place,
}

impl Refusal {
    /// From the number and the place of an answer; none for the number 0.
    pub fn of(number: u32, place: u32) -> Option<Refusal> {
        let reason = Reason::of(number)?;
        let place = match number {
            1..=14 => Place::Position(place),
            21 => Place::Record(place),
            _ => Place::None,
        };
        Some(Refusal { reason, place })
    }

    /// The position of numbers 1 to 14.
    pub fn position(&self) -> Option<u32> {
        match self.place {
            Place::Position(position) => Some(position),
            Place::Record(_) | Place::None => None,
        }
    }
}

impl Display for Refusal {
    fn fmt(&self, out: &mut Formatter) -> fmt::Result {
        write!(out, "refused by {}: {}", self.reason.number(), self.reason.sentence())?;
        match self.place {
            Place::Position(position) => write!(out, ", at {position}"),
            Place::Record(index) => write!(out, ", record {index}"),
            Place::None => Ok(()),
        }
    }
}

impl Error for Refusal {}
