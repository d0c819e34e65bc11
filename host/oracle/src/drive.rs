//! Driving parser.rs over a list: the unchanged file, and its noted copy where a room may be short.
use crate::input::ListInput;
use crate::messages::number_of;
use crate::parser::{Parser, SpannedEventReceiver};
use crate::parser_noted;
use crate::reading::Reading;
use crate::recorder::{position, Recorder};
use crate::scanner::{Notes, ScanError};
use records::{failure, kinds, Ev, Rooms, Settings, Tok};
use scan::events::View;
use std::panic::{catch_unwind, AssertUnwindSafe};
use std::thread;

/// What the Rust gave. The count is the number of events; tags are ranges of `side`.
#[derive(Clone, Debug, PartialEq, Eq)]
pub struct Run {
    pub number: u32,
    pub place: u32,
    pub events: Vec<Ev>,
    pub side: Vec<u8>,
}

/// `load` recurses with the nesting; longer lists get a stack for 65,535 levels.
const SHALLOW: usize = 1_000;
const DEEP_STACK: usize = 1 << 30;

/// A list that passes the first checks, to be run.
#[derive(Clone, Copy, Debug)]
pub struct Job<'a> {
    list: &'a [Tok],
    text: &'a [u8],
    settings: Settings,
    reading: Reading,
}

impl<'a> Job<'a> {
    pub fn new(list: &'a [Tok], text: &'a [u8], settings: Settings) -> Job<'a> {
        Job { list, text, settings, reading: Reading::of(list, text) }
    }

    pub fn reading(&self) -> Reading {
        self.reading
    }

    /// The same job over the carried reading, whatever the text.
    pub fn carried(self) -> Job<'a> {
        Job { reading: Reading::Carried, ..self }
    }

    /// parser.rs unchanged: the iterator, or `load` with multi true where names are forgotten.
    pub fn run(&self) -> Run {
        let deep = self.settings.forget && self.list.len() > SHALLOW;
        if !deep {
            return self.guarded(|recorder| self.drive(recorder));
        }
        thread::scope(|scope| {
            let builder = thread::Builder::new().stack_size(DEEP_STACK);
            let work = || self.guarded(|recorder| self.drive(recorder));
            let thread = builder.spawn_scoped(scope, work).expect("a thread with a large stack");
            thread.join().expect("panics are caught inside")
        })
    }

    /// The noted copy, by the iterator; names are forgotten through its accessor.
    pub fn run_in(&self, rooms: Rooms) -> Run {
        self.guarded(|recorder| self.drive_noted(rooms, recorder).0)
    }

    /// The fewest places with which no room is short; of an endless run, so a refused step counts too.
    pub fn needs(&self) -> Rooms {
        let mut recorder = Recorder::new(self.reading);
        let (_, notes) = self.drive_noted(Rooms::ENDLESS, &mut recorder);
        Rooms { events: recorder.events.len(), ..notes.need }
    }

    fn input(&self, rooms: Rooms) -> ListInput<'a> {
        ListInput { list: self.list, text: self.text, reading: self.reading, rooms }
    }

    fn drive(&self, recorder: &mut Recorder) -> (u32, u32) {
        let input = self.input(Rooms::ENDLESS);
        let mut parser = Parser::new(input).keep_tags(self.settings.keep);
        let end = if self.settings.forget {
            parser.load(recorder, true)
        } else {
            parser.try_for_each(|step| step.map(|(event, span)| recorder.on_event(event, span)))
        };
        end.map_or_else(refusal, |()| (0, 0))
    }

    /// A note stands for the first act of the step that wanted a place too many, so it goes before the step's own end.
    fn drive_noted(&self, rooms: Rooms, recorder: &mut Recorder) -> ((u32, u32), Notes) {
        let input = self.input(rooms);
        let mut parser = parser_noted::Parser::new(input).keep_tags(self.settings.keep);
        let answer = loop {
            let Some(step) = parser.next_event() else { break (0, 0) };
            if let Some(number) = parser.notes().short {
                break (number, 0);
            }
            let (event, span) = match step {
                Ok(given) => given,
                Err(error) => break refusal(error),
            };
            if recorder.events.len() >= rooms.events {
                break (22, 0);
            }
            let view = View::from(&event);
            recorder.record(view, span);
            if self.settings.forget && view.kind == kinds::event::DOCUMENT_START {
                parser.forget();
            }
        };
        (answer, parser.notes())
    }

    fn guarded(&self, drive: impl FnOnce(&mut Recorder) -> (u32, u32)) -> Run {
        let mut recorder = Recorder::new(self.reading);
        let answer = catch_unwind(AssertUnwindSafe(|| drive(&mut recorder)));
        let (number, place) = answer.unwrap_or((failure::PANICKED, 0));
        Run { number, place, events: recorder.events, side: recorder.side }
    }
}

fn refusal(error: ScanError) -> (u32, u32) {
    let number = number_of(error.info()).unwrap_or(failure::STRANGE);
    (number, position(error.marker().index()))
}

/// The unchanged parser.rs over a list that passes the first checks.
pub fn rust_run(list: &[Tok], text: &[u8], settings: Settings) -> Run {
    Job::new(list, text, settings).run()
}

/// The same with rooms: 22 to 25 in the Rust's own order of acts.
pub fn rust_rooms(list: &[Tok], text: &[u8], settings: Settings, rooms: Rooms) -> Run {
    Job::new(list, text, settings).run_in(rooms)
}

/// The places that the run of a list needs.
pub fn rust_needs(list: &[Tok], text: &[u8], settings: Settings) -> Rooms {
    Job::new(list, text, settings).needs()
}
