//! The answer that a case must have.
use crate::checks::first_checks;
use crate::drive::{Job, Run};
use crate::reading::Reading;
use crate::recorder::position;
use records::sizes::ANSWER;
use records::{decode, encode_events, failure, flag, Answer, Case};

/// What the answer to a case must be, with the flags that must hold afterwards.
pub fn answer(case: &Case) -> Answer {
    answer_by(case, |job| job.run())
}

/// The same where the unchanged parser.rs has already run the list with these settings: rooms are nothing to it.
pub fn answer_after(full: &Run, case: &Case) -> Answer {
    answer_by(case, |_| full.clone())
}

fn answer_by(case: &Case, run: impl FnOnce(&Job) -> Run) -> Answer {
    if (case.answer_len as usize) < ANSWER {
        return too_short(case);
    }
    if let Some((number, place)) = first_checks(&case.tokens, &case.text) {
        let refused = Run { number, place, events: Vec::new(), side: Vec::new() };
        return written(case, refused, flag::FROM_CHECKS);
    }
    let list = decode(&case.tokens);
    let job = Job::new(&list, &case.text, case.settings());
    let carried = if job.reading() == Reading::Carried { flag::CARRIED } else { 0 };
    let plain = run(&job);
    let noted = job.run_in(case.rooms());
    if !agree(&plain, &noted) {
        let failed = Run { number: failure::DISAGREED, ..plain };
        return written(case, failed, carried);
    }
    match is_room(noted.number) {
        true => written(case, noted, carried | flag::FROM_NOTED),
        false => written(case, plain, carried),
    }
}

/// With room enough the two are the same; with a short room the noted one has the first events of the other.
fn agree(plain: &Run, noted: &Run) -> bool {
    match is_room(noted.number) {
        true => plain.events.starts_with(&noted.events) && plain.side.starts_with(&noted.side),
        false => plain == noted,
    }
}

fn is_room(number: u32) -> bool {
    (22..=25).contains(&number)
}

fn written(case: &Case, run: Run, notes: u32) -> Answer {
    Answer {
        returned: run.number,
        number: run.number,
        count: position(run.events.len()),
        place: run.place,
        flags: notes | Answer::flags_owed(case, run.number),
        events: encode_events(&run.events),
        side: run.side,
    }
}

fn too_short(case: &Case) -> Answer {
    Answer {
        returned: 28,
        number: Answer::NONE,
        count: Answer::NONE,
        place: Answer::NONE,
        flags: flag::FROM_CHECKS | Answer::flags_owed(case, 28),
        ..Answer::default()
    }
}

#[cfg(test)]
mod tests {
    use super::*;
    use records::Ev;

    fn run(number: u32, events: usize) -> Run {
        Run { number, place: 0, events: vec![Ev::default(); events], side: Vec::new() }
    }

    #[test]
    fn the_noted_copy_may_only_stop_earlier() {
        assert!(agree(&run(0, 5), &run(0, 5)));
        assert!(!agree(&run(0, 5), &run(0, 4)));
        assert!(!agree(&run(0, 5), &run(14, 5)));
        for short in 22..=25 {
            assert!(agree(&run(0, 5), &run(short, 3)));
            assert!(!agree(&run(0, 5), &run(short, 6)));
            let mut other = run(short, 3);
            other.events[2].kind = 1;
            assert!(!agree(&run(0, 5), &other));
        }
    }
}
