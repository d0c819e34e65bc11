//! A list is measured only where both sides accept it and give the same events.
use crate::input::{Input, Lean, Owned};
use crate::list::List;
use crate::parser::{self, Parser};
use crate::scanner::Span;
use crate::sides::{Buffers, Side};
use records::{decode_events, tag_bytes, Ev};
use scan::events::View;

scan::view_of!(parser);

/// The number of events, the same by the proved run and by parser.rs behind each feeder: every field, values and tags
/// by their bytes.
///
/// # Errors
/// The first difference or refusal, in words.
pub fn agree(list: List) -> Result<usize, String> {
    let mut buffers = Buffers::new(Side::Proved.rooms(list.count()));
    Side::Proved.run(list, &mut buffers)?;
    let events = decode_events(buffers.events());
    same(&events, list, Owned(list))?;
    same(&events, list, Lean(list))?;
    Ok(events.len())
}

fn same(events: &[Ev], list: List, input: impl Input) -> Result<(), String> {
    let mut proved = events.iter().enumerate();
    for step in Parser::new(input) {
        let (event, span) = step.map_err(|error| format!("parser.rs: {error}"))?;
        let Some((i, record)) = proved.next() else {
            return Err(format!("parser.rs gives more than {} events", events.len()));
        };
        if !alike(record, list.text.as_bytes(), View::from(&event), span) {
            return Err(format!("event {i}: {record:?} / {event:?} at {span:?}"));
        }
    }
    match proved.next() {
        None => Ok(()),
        Some((i, _)) => Err(format!("parser.rs gives {i} events, the proved run {}", events.len())),
    }
}

fn alike(record: &Ev, text: &[u8], event: View, span: Span) -> bool {
    let numbers = [record.start, record.end, record.number].map(|number| number as usize);
    let tag = event.tag.map(|(prefix, suffix)| (prefix.as_bytes(), suffix.as_bytes()));
    record.kind == event.kind
        && numbers == [span.start.index(), span.end.index(), event.number]
        && record.style == event.style
        && record.value.cut(text) == Some(event.value.as_bytes())
        && tag_bytes(record, text, &[]) == tag
}
