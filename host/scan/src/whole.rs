//! The published scanner and parser together, for holding the list feeder against them.
use crate::parser::{self, Event, Parser, SpannedEventReceiver};
use crate::scanner::Span;
use records::Settings;

crate::view_of!(parser);

/// What the published crate gives for a text.
#[derive(Default)]
pub struct Whole<'input> {
    pub events: Vec<(Event<'input>, Span)>,
    /// The first error, the scanner's or the parser's, and its place.
    pub error: Option<(String, u32)>,
}

impl<'input> SpannedEventReceiver<'input> for Whole<'input> {
    fn on_event(&mut self, event: Event<'input>, span: Span) {
        self.events.push((event, span));
    }
}

/// Runs the published crate: the iterator, or `load` where names are forgotten.
pub fn whole(input: &str, settings: Settings) -> Whole<'_> {
    let mut parser = Parser::new_from_str(input).keep_tags(settings.keep);
    let mut out = Whole::default();
    let end = if settings.forget {
        parser.load(&mut out, true)
    } else {
        parser.try_for_each(|step| step.map(|(event, span)| out.on_event(event, span)))
    };
    out.error = end.err().map(|e| (e.info().to_owned(), e.marker().index() as u32));
    out
}
