//! Every list over one alphabet up to a length, each extended only as long as the Rust's run goes on.
use lists::List;
use oracle::{rust_run, Run};
use records::Settings;

/// A token of every kind, and besides: a second name and a second handle, so that 24 and 25 come up with names entered
/// anew and again, and a tag that needs no directive, so that lists go on behind a tag.
const LETTERS: &str =
    "SS SE VD TD(!e!,p) TD(!f!,q) RD DS DE BOM BSS BMS BE FSS FSE FMS FME ENT FEN KEY VAL \
    ALI(x) ANC(x) ANC(y) TAG(!e!,t) TAG(!,t) SCA(v)";

/// Calls `each` with every list of up to `tokens` tokens and the Rust's full run of it.
///
/// Only a list that the Rust answers by 14 is extended. Any other answer was given before the list ended: the run stops
/// there and looks at no later token, so every longer list with this beginning has the same answer, in every room: a
/// room that is short stops the run at the same act or before. (The first checks do look at later tokens, but every
/// letter passes them.) 14 alone is about the end of the list, and changes when a token is put there.
pub fn grow(tokens: usize, settings: Settings, mut each: impl FnMut(&List, &Run)) {
    let letters = lists::notation::list("", LETTERS);
    let mut stems: Vec<Vec<u8>> = vec![Vec::new()];
    for length in 0..=tokens {
        let mut going_on = Vec::new();
        for word in std::mem::take(&mut stems) {
            let list = spelt(&letters, &word);
            let run = rust_run(&list.tokens, &list.text, settings);
            each(&list, &run);
            if run.number == 14 {
                going_on.push(word);
            }
        }
        if length < tokens {
            stems = extended(&going_on, letters.tokens.len());
        }
    }
}

fn extended(words: &[Vec<u8>], letters: usize) -> Vec<Vec<u8>> {
    let by = |word: &Vec<u8>, letter: usize| [&word[..], &[letter as u8]].concat();
    words.iter().flat_map(|word| (0..letters).map(move |letter| by(word, letter))).collect()
}

fn spelt(letters: &List, word: &[u8]) -> List {
    let tokens = word.iter().map(|letter| letters.tokens[usize::from(*letter)]).collect();
    let mut list = List { tokens, text: letters.text.clone() };
    list.lay_in_steps();
    list
}

#[cfg(test)]
mod tests {
    use super::*;
    use records::kinds::LAST_KIND;
    use std::collections::BTreeSet;

    #[test]
    fn every_kind_is_a_letter() {
        let letters = lists::notation::list("", LETTERS).tokens;
        let kinds: BTreeSet<u32> = letters.iter().map(|token| token.kind).collect();
        assert_eq!(kinds, (1..=LAST_KIND).collect());
        assert_eq!(letters.len(), 26);
    }

    /// No token; each letter alone; StreamStart, which alone goes on, and each letter.
    #[test]
    fn only_lists_that_go_on_are_extended() {
        let mut lengths = [0; 3];
        grow(2, Settings::default(), |list, _| lengths[list.tokens.len()] += 1);
        assert_eq!(lengths, [1, 26, 26]);
    }
}
