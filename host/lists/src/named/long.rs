//! Named lists at the limits of document 01.
use super::Named;
use crate::list::List;
use crate::long::{documents, nested};
use records::kinds::{FLOW_SEQUENCE_END, FLOW_SEQUENCE_START, TAG};
use records::sizes::{MAX_TEXT, MAX_TOKENS};
use records::{Range, Tok};

pub const ALL: [fn() -> Named; 9] = [
    k_runs,
    k_refused,
    trap_27_20_first,
    trap_27_26_next,
    trap_27_27_next,
    trap_27_21_last,
    trap_27_longest_text,
    trap_37,
    trap_37_deepest,
];

fn k_runs() -> Named {
    let list = documents(MAX_TOKENS);
    Named::of("k: 65,536 tokens", &list).accepted(3 * MAX_TOKENS - 4)
}

fn k_refused() -> Named {
    Named::of("k: 65,537 tokens", &documents(MAX_TOKENS + 1)).refused(26, 0, 0)
}

/// Everything that the first checks look at is wrong; `mend` puts the first of it right.
fn all_wrong(name: &str, mend: impl FnOnce(&mut List, &mut Vec<u8>)) -> Named {
    let mut list = documents(MAX_TOKENS + 1);
    list.tokens[0].kind = 0;
    list.text = vec![b'x'; MAX_TEXT + 1];
    let mut rest = vec![0];
    mend(&mut list, &mut rest);
    Named::of(name, &list).edit(|case| case.tokens.extend(rest))
}

fn trap_27_20_first() -> Named {
    all_wrong("trap 27: 20 before the others", |_, _| {}).refused(20, 0, 0)
}

fn trap_27_26_next() -> Named {
    all_wrong("trap 27: 26 before 27", |_, rest| rest.clear()).refused(26, 0, 0)
}

fn trap_27_27_next() -> Named {
    let mend = |list: &mut List, rest: &mut Vec<u8>| {
        rest.clear();
        list.tokens.truncate(4);
    };
    all_wrong("trap 27: 27 before 21", mend).refused(27, 0, 0)
}

fn trap_27_21_last() -> Named {
    let mend = |list: &mut List, rest: &mut Vec<u8>| {
        rest.clear();
        list.tokens.truncate(4);
        list.text.pop();
    };
    all_wrong("trap 27: 21 at last", mend).refused(21, 0, 0)
}

fn trap_27_longest_text() -> Named {
    let mut list = documents(4);
    list.text = vec![b'x'; MAX_TEXT];
    let end = MAX_TEXT as u32;
    let tag = Tok { a: Range::new(end - 1, end), ..Tok::new(TAG) };
    list.tokens[2] = tag.at(20, 25);
    Named::of("trap 27: a text of 16,777,216 bytes", &list)
        .accepted(5)
        .event(2, "Scalar 20-25 tag \"x\" \"\"")
}

/// The run does not bound the nesting; the walk answers 31 for the events of this list.
fn trap_37() -> Named {
    let list = nested(&[FLOW_SEQUENCE_START], 1_001, &[FLOW_SEQUENCE_END]);
    Named::of("trap 37: 1,001 deep is no matter for the run", &list).accepted(2_006)
}

fn trap_37_deepest() -> Named {
    let list = nested(&[FLOW_SEQUENCE_START], MAX_TOKENS - 1, &[]);
    Named::of("trap 37: 65,535 deep", &list).forget().refused(14, MAX_TOKENS + 1, 0)
}
