//! The events of parser.rs as records of document 01.
use crate::parser::{self, Event, SpannedEventReceiver};
use crate::parser_noted;
use crate::reading::Reading;
use crate::scanner::{range_of, Span};
use records::{Ev, Range, SIDE};
use scan::events::View;

scan::view_of!(parser);
scan::view_of!(parser_noted);

/// Collects events; the bytes of tags go to the side.
pub struct Recorder {
    reading: Reading,
    pub events: Vec<Ev>,
    pub side: Vec<u8>,
}

impl Recorder {
    pub fn new(reading: Reading) -> Recorder {
        Recorder { reading, events: Vec::new(), side: Vec::new() }
    }

    pub fn record(&mut self, event: View, span: Span) {
        let mut record = Ev {
            kind: event.kind,
            start: position(span.start.index()),
            end: position(span.end.index()),
            number: position(event.number),
            style: event.style,
            value: range_of(event.value),
            ..Ev::default()
        };
        if let Some((prefix, suffix)) = event.tag {
            record.source = SIDE;
            record.prefix = self.put_aside(prefix);
            record.suffix = self.put_aside(suffix);
        }
        self.events.push(record);
    }

    fn put_aside(&mut self, string: &str) -> Range {
        let from = self.side.len();
        self.side.extend(self.reading.bytes(string));
        Range::new(position(from), position(self.side.len()))
    }
}

impl<'input> SpannedEventReceiver<'input> for Recorder {
    fn on_event(&mut self, event: Event<'input>, span: Span) {
        self.record(View::from(&event), span);
    }
}

pub fn position(number: usize) -> u32 {
    u32::try_from(number).expect("a number of a record")
}
