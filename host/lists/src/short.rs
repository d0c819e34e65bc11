//! Every list over a small alphabet, shortest first, as long as the run goes on.
use crate::list::List;
use crate::notation;
use oracle::rust_run;
use records::{Case, Settings};

/// A token of every kind.
pub const EVERY_KIND: [&str; 23] = [
    "SS",
    "SE",
    "VD",
    "TD(!e!,p)",
    "RD",
    "DS",
    "DE",
    "BOM",
    "BSS",
    "BMS",
    "BE",
    "FSS",
    "FSE",
    "FMS",
    "FME",
    "ENT",
    "FEN",
    "KEY",
    "VAL",
    "ALI(x)",
    "ANC(x)",
    "TAG(!e!,t)",
    "SCA(v)",
];

/// Smaller alphabets, for longer lists: flow and block collections, documents and directives, properties.
const ALPHABETS: [&str; 4] = [
    "SE FSS FSE FMS FME FEN KEY VAL SCA(v) ANC(x)",
    "SE BSS BMS BE ENT KEY VAL SCA(v) ANC(x)",
    "SE VD TD(!e!,p) TD(!f!,q) RD DS DE BOM SCA(v) ANC(x) ALI(x)",
    "SE DS DE SCA(v) ANC(x) ANC(y) ALI(x) ALI(y) TAG(!!,t) TAG(!,t) TAG(!e!,t) TAG(,t) TAG(,!) TD(!!,p) TD(!,p) \
     TD(!e!,) TD(,p)",
];

/// The lists of all alphabets and settings by turns. They never end; the first are the shortest.
pub fn short() -> impl Iterator<Item = Case> {
    let mut growths: Vec<Growth> = Vec::new();
    for letters in [EVERY_KIND.join(" ")].into_iter().chain(ALPHABETS.map(str::to_owned)) {
        growths.extend(Settings::ALL.map(|settings| Growth::new(&letters, settings)));
    }
    (0..growths.len()).cycle().filter_map(move |i| growths[i].next())
}

/// The lists over one alphabet with one setting: StreamStart, then letters, each list that answers 14 extended by
/// every letter.
struct Growth {
    letters: List,
    settings: Settings,
    /// Lists of one length that go on, and how many of their extensions are done.
    stems: Vec<Vec<u8>>,
    done: usize,
    /// The lists of the next length that go on.
    longer: Vec<Vec<u8>>,
}

impl Growth {
    fn new(letters: &str, settings: Settings) -> Growth {
        let letters = notation::list("", &format!("SS {letters}"));
        Growth { letters, settings, stems: vec![vec![0]], done: 0, longer: Vec::new() }
    }

    fn list(&self, word: &[u8]) -> List {
        let letters = &self.letters;
        let tokens = word.iter().map(|letter| letters.tokens[usize::from(*letter)]).collect();
        let mut list = List { tokens, text: letters.text.clone() };
        list.lay_in_steps();
        list
    }
}

impl Iterator for Growth {
    type Item = Case;

    fn next(&mut self) -> Option<Case> {
        let letters = self.letters.tokens.len() - 1;
        if self.done == self.stems.len() * letters {
            self.stems = std::mem::take(&mut self.longer);
            self.done = 0;
        }
        let mut word = self.stems.get(self.done / letters)?.clone();
        word.push((1 + self.done % letters) as u8);
        self.done += 1;
        let list = self.list(&word);
        if rust_run(&list.tokens, &list.text, self.settings).number == 14 {
            self.longer.push(word);
        }
        Some(Case::roomy(&list.tokens, &list.text, self.settings))
    }
}
