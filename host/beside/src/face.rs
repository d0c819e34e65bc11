//! A case through the proved library.
use records::{Answer, Case, Lent as After};
use saphyr_events::face::{call as saphyr_run, Lent};

/// What the proved run leaves behind for a case.
pub fn call(case: &Case) -> Answer {
    let filled = |length: u32| vec![case.fill as u8; length as usize];
    let [mut events, mut states, mut anchors, mut handles] = case.lengths().map(filled);
    let mut answer = filled(case.answer_len);
    let lent = Lent {
        events: &mut events,
        states: &mut states,
        anchors: &mut anchors,
        handles: &mut handles,
    };
    let settings = [case.keep, case.forget];
    let returned = saphyr_run(&case.tokens, &case.text, settings, lent, &mut answer);
    let work = [&states[..], &anchors, &handles];
    Answer::gather(returned, case.fill as u8, After { events: &events, work, answer: &answer })
}
