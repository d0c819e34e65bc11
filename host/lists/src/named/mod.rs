//! Lists with names, and the answers that document 01 and the rules written from it give them. The answers are written
//! by hand, never taken from a run.
mod lists;
mod long;
mod traps;

use crate::list::List;
use crate::notation;
use records::{decode_events, show_event, Answer, Case, Rooms, Settings};

/// A case, its name and what is known of its answer.
pub struct Named {
    pub name: String,
    pub case: Case,
    number: u32,
    count: usize,
    place: u32,
    /// Events as `show_event` prints them.
    events: Vec<(usize, &'static str)>,
}

/// After every answer but 28: event tail and answer tail kept, the three work buffers zero.
const FLAGS: u32 = 1 + 2 + 4 + 8 + 128;

/// Every named list; the long ones are made when their turn comes.
pub fn all() -> impl Iterator<Item = Named> {
    let short = lists::all().into_iter().chain(traps::all());
    short.chain(long::ALL.into_iter().map(|make| make()))
}

impl Named {
    fn of(name: &str, list: &List) -> Named {
        Named {
            name: name.to_owned(),
            case: Case::roomy(&list.tokens, &list.text, Settings::default()),
            number: 0,
            count: 0,
            place: 0,
            events: Vec::new(),
        }
    }

    /// A list in the notation of `notation`.
    fn new(name: &str, tokens: &str) -> Named {
        Named::over(name, "", tokens)
    }

    /// A list over a text of its own.
    fn over(name: &str, text: &str, tokens: &str) -> Named {
        Named::of(name, &notation::list(text, tokens))
    }

    fn keep(mut self) -> Named {
        self.case.keep = 1;
        self
    }

    fn forget(mut self) -> Named {
        self.case.forget = 1;
        self
    }

    /// The same case with other buffers.
    fn edit(mut self, edit: impl FnOnce(&mut Case)) -> Named {
        edit(&mut self.case);
        self
    }

    /// The same case with other rooms.
    fn rooms(mut self, edit: impl FnOnce(&mut Rooms)) -> Named {
        let mut rooms = self.case.rooms();
        edit(&mut rooms);
        self.case = self.case.with_rooms(rooms);
        self
    }

    fn states(self, states: usize) -> Named {
        self.rooms(|rooms| rooms.states = states)
    }

    fn anchors(self, anchors: usize) -> Named {
        self.rooms(|rooms| rooms.anchors = anchors)
    }

    fn handles(self, handles: usize) -> Named {
        self.rooms(|rooms| rooms.handles = handles)
    }

    fn accepted(self, count: usize) -> Named {
        self.refused(0, count, 0)
    }

    fn refused(self, number: u32, count: usize, place: u32) -> Named {
        Named { number, count, place, ..self }
    }

    /// One event of the answer.
    fn event(mut self, index: usize, shown: &'static str) -> Named {
        self.events.push((index, shown));
        self
    }

    /// All events of the answer.
    fn events(mut self, shown: &[&'static str]) -> Named {
        assert_eq!(shown.len(), self.count, "{}: all events are written out", self.name);
        self.events = shown.iter().copied().enumerate().collect();
        self
    }

    /// What in `answer` is not as written, in words; none if all is.
    pub fn difference(&self, answer: &Answer) -> Option<String> {
        let written = [self.number, self.number, self.count as u32, self.place];
        let found = [answer.returned, answer.number, answer.count, answer.place];
        if written != found {
            return Some(format!("{}: {written:?} written, {found:?} found", self.name));
        }
        if answer.flags & FLAGS != FLAGS {
            return Some(format!("{}: flags {}", self.name, answer.flags));
        }
        let events = decode_events(&answer.events);
        self.events.iter().find_map(|(index, written)| {
            let found = match events.get(*index) {
                Some(event) => show_event(event, &self.case.text, &answer.side),
                None => "no event".to_owned(),
            };
            let words = || format!("{}: event {index}: {written} / {found}", self.name);
            (*written != found).then(words)
        })
    }
}
