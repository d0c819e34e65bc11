//! A list for each number of the steps, 0 to 14, and for each setting, tag source and style: the lists of the table that
//! `crates/rules` proves. Its answers are the Rust's.
mod antt;

use crate::notation;
use oracle::answer;
use records::sizes::CORE_PREFIX;
use records::{decode_events, tag_bytes, Answer, Case, Ev, Range, Settings, SIDE};

pub use antt::table;

/// A list in the notation of `notation`, to be run with these settings.
pub struct Row {
    pub list: &'static str,
    pub settings: Settings,
}

/// What the Rust answers, with the tags as document 01 has them.
pub struct Said {
    pub case: Case,
    pub answer: Answer,
    pub events: Vec<Ev>,
}

const NEITHER: Settings = Settings { keep: false, forget: false };
const KEEP: Settings = Settings { keep: true, forget: false };
const FORGET: Settings = Settings { keep: false, forget: true };

/// One list with each setting: `!!` is declared by the first document alone, and so is x.
const FOUR: &str =
    "SS TD(!!,p) DS ANC(x) TAG(!!,t) SCA(a) DS FSS TAG(!!,u) SCA(b) FEN ALI(x) FSE SE";
const TAG_AFTER: &str = "SS TD(!e!,p) DS TAG(!e!,t) SCA(a) DE DS TAG(!e!,u) SCA(b) SE";
const ALIAS_AFTER: &str = "SS ANC(x) SCA(a) DE ALI(x) SE";

/// Lists whose answer is asked with both settings off.
const LISTS: [&str; 24] = [
    // styles, and collections in a block
    "SS FSS SCA(a) FEN SCA(b):1 FEN SCA(c):2 FEN SCA(d):3 FEN SCA(e):4 FSE SE",
    "SS BMS KEY SCA(k) VAL BSS ENT SCA(a) ENT BE KEY SCA(l) VAL ENT SCA(b) BE SE",
    // tags: the constant, a handle that stays itself, a declared prefix
    "SS TAG(!!,t) SCA(a) SE",
    "SS TAG(!!,t) SE",
    "SS TAG(!,t) FSS FSE SE",
    "SS ANC(x) TAG(foo,t) FMS FME SE",
    "SS TD(!e!,p) DS TAG(!e!,t) ANC(x) SCA(a):2 SE",
    // refusals, 1 to 14
    "DS@3-6 SE",
    "SS TD(!e!,p) SE",
    "SS SCA(a) SCA(b)",
    "SS VD RD VD DS",
    "SS TD(!e!,p) TD(!f!,q) TD(!e!,r)",
    "SS VD BOM",
    "SS SCA(a) BOM BOM SCA(b)",
    "SS DS VD",
    "SS FSS ANC(x) SCA(a) FEN ALI(y)",
    "SS BMS KEY SCA(k) VAL FEN",
    "SS BMS KEY SCA(k) VAL SCA(a) ENT",
    "SS FMS KEY SCA(k) VAL SCA(a) KEY",
    "SS FSS SCA(a) SCA(b)",
    "SS BSS ENT SCA(a) KEY",
    "SS TD(!e!,p) DS TAG(!f!,t) SCA(a)",
    "SS BSS ENT SCA(a)",
    "SS ANC(x)",
];

/// Lists that the settings are there for.
const SET: [(&str, Settings); 5] = [
    (TAG_AFTER, NEITHER),
    (TAG_AFTER, KEEP),
    ("SS TD(!e!,p) DS DE TD(!e!,q) DS TAG(!e!,t) SCA(a) SE", KEEP),
    (ALIAS_AFTER, NEITHER),
    (ALIAS_AFTER, FORGET),
];

/// The rows of the table.
pub fn rows() -> impl Iterator<Item = Row> {
    let plain = LISTS.into_iter().map(|list| (list, NEITHER));
    let four = Settings::ALL.into_iter().map(|settings| (FOUR, settings));
    plain.chain(SET).chain(four).map(|(list, settings)| Row { list, settings })
}

impl Row {
    /// # Panics
    /// Where the Rust gives no answer, or a tag whose bytes do not tell its ranges.
    pub fn said(&self) -> Said {
        let list = notation::list("", self.list);
        let case = Case::roomy(&list.tokens, &list.text, self.settings);
        let answer = answer(&case);
        assert!(!answer.failed(), "{}", self.list);
        let found = decode_events(&answer.events).into_iter();
        let events = found.map(|event| in_text(event, &case.text, &answer.side)).collect();
        Said { case, answer, events }
    }
}

/// The Rust's tags are strings; each of a row stands once in the text, or is the constant.
fn in_text(event: Ev, text: &[u8], side: &[u8]) -> Ev {
    if event.source != SIDE {
        return event;
    }
    let (prefix, suffix) = tag_bytes(&event, text, side).expect("the bytes of a tag");
    let (source, prefix) = match places(text, prefix)[..] {
        [place] => (2, place),
        [] if prefix == CORE_PREFIX => (1, Range::default()),
        _ => panic!("which prefix: {}", prefix.escape_ascii()),
    };
    match places(text, suffix)[..] {
        [suffix] => Ev { source, prefix, suffix, ..event },
        _ => panic!("which suffix: {}", suffix.escape_ascii()),
    }
}

/// Where a text has these bytes; nowhere, if there are none.
fn places(text: &[u8], bytes: &[u8]) -> Vec<Range> {
    let all = text.windows(bytes.len().max(1)).enumerate();
    let found = all.filter(|(_, window)| *window == bytes);
    found.map(|(from, _)| Range::new(from as u32, (from + bytes.len()) as u32)).collect()
}
