//! What a call left behind, or has to leave behind.
use crate::case::Case;
use crate::sizes::{word, ANSWER, EVENT};

/// Numbers that no run gives: the oracle itself failed, and every comparison is a failure.
pub mod failure {
    /// parser.rs panicked.
    pub const PANICKED: u32 = 0xFFFF_FFFD;
    /// parser.rs gave a message that document 01 has no number for.
    pub const STRANGE: u32 = 0xFFFF_FFFC;
    /// The unchanged parser.rs and its noted copy disagree.
    pub const DISAGREED: u32 = 0xFFFF_FFFB;
    pub const ALL: [u32; 3] = [PANICKED, STRANGE, DISAGREED];
}

/// Flags of an answer. The lower eight are a plain look at the bytes after the call; an empty buffer satisfies all.
pub mod flag {
    /// The event buffer past the events is all fill.
    pub const EVENT_TAIL_KEPT: u32 = 1;
    /// The open states', anchors', handles' buffer is all zero.
    pub const ZEROED: [u32; 3] = [2, 4, 8];
    /// The same three buffers are all fill.
    pub const KEPT: [u32; 3] = [16, 32, 64];
    /// The answer buffer past its first 12 bytes (all of it, if under 12) is all fill.
    pub const ANSWER_TAIL_KEPT: u32 = 128;
    /// The flags that are compared.
    pub const LOOKED_AT: u32 = 0xFF;
    /// Not compared: the answer is document 01's first checks or 28, no Rust was run.
    pub const FROM_CHECKS: u32 = 256;
    /// Not compared: the answer comes from the noted copy of parser.rs, because a room is short.
    pub const FROM_NOTED: u32 = 512;
    /// Not compared: the Rust was given the text with each byte as one character.
    pub const CARRIED: u32 = 1024;
}

/// One answer, framed as `ANSW`.
#[derive(Clone, Debug, Default, PartialEq, Eq)]
pub struct Answer {
    /// The number returned by the call.
    pub returned: u32,
    pub number: u32,
    pub count: u32,
    pub place: u32,
    pub flags: u32,
    pub events: Vec<u8>,
    /// Bytes of tags, of the oracle only.
    pub side: Vec<u8>,
}

/// The five lent buffers after a call.
#[derive(Clone, Copy, Debug)]
pub struct Lent<'a> {
    pub events: &'a [u8],
    /// Open states, anchors, handles.
    pub work: [&'a [u8]; 3],
    pub answer: &'a [u8],
}

impl Answer {
    /// What stands for number, count and place where the answer buffer is under 12 bytes.
    pub const NONE: u32 = 0xFFFF_FFFF;

    pub fn failed(&self) -> bool {
        failure::ALL.contains(&self.number) || failure::ALL.contains(&self.returned)
    }

    /// The flags that must hold after a call answered with `number`.
    pub fn flags_owed(case: &Case, number: u32) -> u32 {
        let [_, work @ ..] = case.lengths();
        let mut flags = flag::EVENT_TAIL_KEPT | flag::ANSWER_TAIL_KEPT;
        for (i, length) in work.into_iter().enumerate() {
            let alike = length == 0 || case.fill == 0;
            let zeroed = number != 28;
            flags |= if zeroed || alike { flag::ZEROED[i] } else { 0 };
            flags |= if !zeroed || alike { flag::KEPT[i] } else { 0 };
        }
        flags
    }

    /// Gathers what a call left in the lent buffers.
    pub fn gather(returned: u32, fill: u8, lent: Lent) -> Answer {
        let answered = lent.answer.len() >= ANSWER;
        let at = |i: usize| if answered { word(lent.answer, i) } else { Answer::NONE };
        let [number, count, place] = [at(0), at(4), at(8)];
        let whole = if answered { (count as usize).saturating_mul(EVENT) } else { 0 };
        let (events, tail) = lent.events.split_at(whole.min(lent.events.len()));
        let rest = if answered { &lent.answer[ANSWER..] } else { lent.answer };
        let mut flags = 0;
        let mut note = |holds: bool, flag: u32| flags |= if holds { flag } else { 0 };
        let all = |bytes: &[u8], byte: u8| bytes.iter().all(|b| *b == byte);
        note(all(tail, fill), flag::EVENT_TAIL_KEPT);
        note(all(rest, fill), flag::ANSWER_TAIL_KEPT);
        for (i, buffer) in lent.work.into_iter().enumerate() {
            note(all(buffer, 0), flag::ZEROED[i]);
            note(all(buffer, fill), flag::KEPT[i]);
        }
        Answer { returned, number, count, place, flags, events: events.to_vec(), side: Vec::new() }
    }
}
