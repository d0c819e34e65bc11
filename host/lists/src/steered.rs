//! Lists grown token by token, each one that the Rust goes on with.
use crate::list::List;
use crate::rng::Rng;
use crate::words::any_token;
use oracle::rust_run;
use records::kinds::*;
use records::Settings;

/// Tokens that may bring a list to its end.
const CLOSING: [u32; 7] =
    [STREAM_END, BLOCK_END, FLOW_SEQUENCE_END, FLOW_MAPPING_END, FLOW_ENTRY, VALUE, SCALAR];

pub fn steered(rng: &mut Rng, settings: Settings) -> List {
    let mut list = List::default();
    let all: Vec<u32> = (1..=LAST_KIND).collect();
    let size = 2 + rng.below(28);
    while list.tokens.len() < size && grow(rng, &mut list, settings, &all) == 14 {}
    match rng.below(3) {
        // Any token after all: the refusals of states that are far from the beginning.
        0 => {
            let kind = rng.pick(&all);
            let token = any_token(rng, &mut list, kind);
            list.tokens.push(token);
        }
        _ => close(rng, &mut list, settings),
    }
    list.lay(rng);
    list
}

fn close(rng: &mut Rng, list: &mut List, settings: Settings) {
    for _ in 0..rng.below(16) {
        if number(list, settings) == 14 {
            grow(rng, list, settings, &CLOSING);
        }
    }
}

/// Adds one token of the kinds with which the run goes on or ends well, if one is found; the answer then.
fn grow(rng: &mut Rng, list: &mut List, settings: Settings, kinds: &[u32]) -> u32 {
    let mut last = 14;
    for _ in 0..kinds.len() {
        let kind = rng.pick(kinds);
        let text = list.text.len();
        let token = any_token(rng, list, kind);
        list.tokens.push(token);
        last = number(list, settings);
        if last == 14 || last == 0 {
            return last;
        }
        list.tokens.pop();
        list.text.truncate(text);
    }
    last
}

fn number(list: &List, settings: Settings) -> u32 {
    rust_run(&list.tokens, &list.text, settings).number
}
