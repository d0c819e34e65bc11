//! Lists at and near the limits, and the lists with the most events.
use crate::list::List;
use records::kinds::*;
use records::sizes::MAX_TOKENS;
use records::{Case, Settings, Tok};

/// Each list with all four settings.
pub fn long() -> impl Iterator<Item = Case> {
    let witnesses = [2, 3, 4, 10, 21, 1_000, MAX_TOKENS, MAX_TOKENS + 1].into_iter().map(documents);
    let rest = OTHERS.into_iter().map(|make| make());
    witnesses.chain(rest).flat_map(|mut list| {
        list.lay_in_steps();
        let case = move |settings| Case::roomy(&list.tokens, &list.text, settings);
        Settings::ALL.map(case)
    })
}

const OTHERS: [fn() -> List; 9] = [
    anchors,
    directives,
    directives_twice,
    || nested(&[FLOW_SEQUENCE_START], MAX_TOKENS - 1, &[]),
    || nested(&[FLOW_SEQUENCE_START], MAX_TOKENS / 2 - 1, &[FLOW_SEQUENCE_END]),
    || nested(&[FLOW_MAPPING_START, KEY], 8_000, &[FLOW_MAPPING_END]),
    || nested(&[BLOCK_SEQUENCE_START, BLOCK_ENTRY], 8_000, &[BLOCK_END]),
    || nested(&[BLOCK_MAPPING_START, KEY], 8_000, &[BLOCK_END]),
    values,
];

/// StreamStart, `tokens - 2` DocumentStart, StreamEnd: 3 x tokens - 4 events.
pub fn documents(tokens: usize) -> List {
    between(vec![Tok::new(DOCUMENT_START); tokens - 2], Vec::new())
}

fn between(middle: Vec<Tok>, text: Vec<u8>) -> List {
    let mut tokens = vec![Tok::new(STREAM_START)];
    tokens.extend(middle);
    tokens.push(Tok::new(STREAM_END));
    List { tokens, text }
}

/// 9,000 anchors and an alias to each.
fn anchors() -> List {
    let mut list = List::default();
    list.tokens.extend([STREAM_START, FLOW_SEQUENCE_START].map(Tok::new));
    for kind in [ANCHOR, ALIAS] {
        for i in 0..9_000 {
            let a = list.append(format!("id{i:05}").as_bytes());
            list.tokens.push(Tok { a, ..Tok::new(kind) });
            list.tokens.push(Tok::new(FLOW_ENTRY));
        }
    }
    list.tokens.extend([FLOW_SEQUENCE_END, STREAM_END].map(Tok::new));
    list
}

fn declare(list: &mut List, count: usize) {
    for i in 0..count {
        let (a, b) = (list.append(format!("!h{i}!").as_bytes()), list.append(b"p"));
        list.tokens.push(Tok { a, b, ..Tok::new(TAG_DIRECTIVE) });
    }
    list.tokens.push(Tok::new(DOCUMENT_START));
}

fn directives() -> List {
    let mut list = List::default();
    declare(&mut list, 3_000);
    let (a, b) = (list.append(b"!h2999!"), list.append(b"t"));
    list.tokens.push(Tok { a, b, ..Tok::new(TAG) });
    between(list.tokens, list.text)
}

/// The same handles again in a second document, and one of the first twice.
fn directives_twice() -> List {
    let mut list = List::default();
    declare(&mut list, 300);
    list.tokens.push(Tok::new(DOCUMENT_END));
    declare(&mut list, 301);
    list.tokens.push(Tok::new(DOCUMENT_END));
    let (a, b) = (list.append(b"!h0!"), list.append(b"q"));
    list.tokens.extend([Tok { a, b, ..Tok::new(TAG_DIRECTIVE) }; 2]);
    between(list.tokens, list.text)
}

/// `open` so often, then `close` as often. Nothing closed: the list ends there.
pub fn nested(open: &[u32], depth: usize, close: &[u32]) -> List {
    let repeat = |kinds: &[u32]| kinds.repeat(depth).into_iter().map(Tok::new).collect::<Vec<_>>();
    let mut list = between([repeat(open), repeat(close)].concat(), Vec::new());
    if close.is_empty() {
        list.tokens.pop();
    }
    list
}

/// Value after Value: two events for each token that is taken.
fn values() -> List {
    let mut middle = vec![Tok::new(VALUE); MAX_TOKENS - 4];
    middle.insert(0, Tok::new(BLOCK_MAPPING_START));
    middle.push(Tok::new(BLOCK_END));
    between(middle, Vec::new())
}
