//! Lists as YAML text with the Rust's answer, for `tests/texts.py`, which asks another parser about the text.
mod chosen;
mod lines;
mod written;

use crate::list::List;
use chosen::{drawn, is_closed, PLANS};
use lines::{events, quoted, spelt};
use oracle::rust_run;
use records::kinds::{FLOW_MAPPING_END, FLOW_MAPPING_START};
use records::{Settings, Tok};
use scan::{scan, Scan};
use std::collections::HashSet;
use std::io::{self, Write};
use written::{written, Keys};

/// Names are forgotten and tags not kept, as in YAML.
const SETTINGS: Settings = Settings { keep: false, forget: true };

/// Writes a line of JSON for each text, then one for each plan with the count of its lists and of those without a text.
/// A list that does not close what it opens is left out unless the Rust accepts it: YAML has no such list.
pub fn texts(count: u64, out: &mut impl Write) -> io::Result<()> {
    let mut seen = HashSet::new();
    for plan in &PLANS {
        let mut page = Page::new(plan.name, &mut seen, out);
        plan.lists(|list| page.list(list))?;
        page.end()?;
    }
    let mut page = Page::new("drawn", &mut seen, out);
    for index in 0..count {
        page.list(&drawn(index))?;
    }
    page.end()
}

/// The lists of one plan.
struct Page<'a, W> {
    name: &'a str,
    seen: &'a mut HashSet<String>,
    out: &'a mut W,
    lists: usize,
    textless: usize,
}

impl<'a, W: Write> Page<'a, W> {
    fn new(name: &'a str, seen: &'a mut HashSet<String>, out: &'a mut W) -> Page<'a, W> {
        Page { name, seen, out, lists: 0, textless: 0 }
    }

    fn list(&mut self, list: &List) -> io::Result<()> {
        let run = rust_run(&list.tokens, &list.text, SETTINGS);
        let name = spelt(list);
        if !(run.number == 0 || is_closed(list)) || !self.seen.insert(name.clone()) {
            return Ok(());
        }
        self.lists += 1;
        let mut texts: Vec<String> =
            [Keys::Marked, Keys::Bare].iter().filter_map(|keys| written(list, *keys)).collect();
        texts.dedup();
        self.textless += usize::from(texts.is_empty());
        let given: Vec<String> = events(&run, &list.text).iter().map(|line| quoted(line)).collect();
        for text in texts {
            writeln!(
                self.out,
                r#"{{"plan": {}, "list": {}, "text": {}, "scanned": {}, "number": {}, "events": [{}]}}"#,
                quoted(self.name),
                quoted(&name),
                quoted(&text),
                quoted(scanned(list, &text)),
                run.number,
                given.join(", ")
            )?;
        }
        Ok(())
    }

    fn end(self) -> io::Result<()> {
        let name = quoted(self.name);
        writeln!(
            self.out,
            r#"{{"plan": {name}, "lists": {}, "textless": {}}}"#,
            self.lists, self.textless
        )
    }
}

/// What the published scanner makes of the text of a list.
fn scanned(list: &List, text: &str) -> &'static str {
    let found = scan(text);
    let wanted = shapes(&list.tokens, &list.text);
    if found.error.is_some() {
        "refused"
    } else if shapes(&found.list, found.text.as_bytes()) == wanted {
        "same"
    } else if unwrapped(&found) == wanted {
        "pairs"
    } else {
        "other"
    }
}

/// What a token is, wherever it stands.
type Shape = (u32, Vec<Vec<u8>>, u32);

fn shapes(tokens: &[Tok], text: &[u8]) -> Vec<Shape> {
    let cut = |token: &Tok| {
        token.used_ranges().map(|range| range.cut(text).unwrap_or_default().to_vec()).collect()
    };
    tokens.iter().map(|token| (token.kind, cut(token), token.style)).collect()
}

/// Without the FlowMappingStart and FlowMappingEnd that the scanner puts around a single pair; they have no width.
fn unwrapped(found: &Scan) -> Vec<Shape> {
    let put_in = |token: &Tok| {
        matches!(token.kind, FLOW_MAPPING_START | FLOW_MAPPING_END) && token.start == token.end
    };
    let kept: Vec<Tok> = found.list.iter().filter(|token| !put_in(token)).copied().collect();
    shapes(&kept, found.text.as_bytes())
}

#[cfg(test)]
mod tests {
    use super::*;
    use crate::notation;

    /// A list, its text with every key marked, the one with bare keys, and what the scanner makes of the two.
    #[rustfmt::skip]
    const WRITTEN: [(&str, &str, &str, [&str; 2]); 9] = [
        ("SS FSS KEY SCA(a) VAL SCA(b):2 FSE SE", "[ ? a : \"b\" ]\n", "[ a : \"b\" ]\n", ["same", "pairs"]),
        ("SS FSS KEY FEN VAL FSE SE", "[ ? , : ]\n", "[ ? , : ]\n", ["same"; 2]),
        ("SS FSS KEY FSE FSE SE", "[ ? ] ]\n", "[ ? ] ]\n", ["refused"; 2]),
        ("SS FMS KEY KEY SCA(a):1 VAL FME SE", "{ ? ? 'a' : }\n", "{ ? ? 'a' : }\n", ["same"; 2]),
        ("SS BMS KEY ANC(x) VAL ENT SCA(a):3 BE SE", "? &x\n:\n- |-\n   a\n", "&x :\n- |-\n   a\n", ["same"; 2]),
        ("SS BSS ENT BMS KEY SCA(a) BE ENT BE SE", "-\n  ? a\n-\n", "-\n  ? a\n-\n", ["same"; 2]),
        ("SS BOM TD(!e!,p) DS TAG(!e!,t) DE BOM SE", "\u{feff}%TAG !e! p\n--- !e!t\n...\n\u{feff}",
            "\u{feff}%TAG !e! p\n--- !e!t\n...\n\u{feff}", ["same"; 2]),
        ("SS TAG(,!) ANC(x) BSS ENT ALI(x) ENT TAG(,t) BE SE", "! &x\n- *x\n- !<t>\n", "! &x\n- *x\n- !<t>\n", ["same"; 2]),
        ("SS SCA(a) SCA(b) SE", "a b\n", "a b\n", ["other"; 2]),
    ];

    /// A Key that is missing, a block in flow, blocks that a text would not end or keep apart, what has no mark in YAML.
    const TEXTLESS: [&str; 9] = [
        "SS FSS SCA(a) VAL FSE SE",
        "SS FSS BSS ENT BE FSE SE",
        "SS BSS ENT SE",
        "SS BSS BE SE",
        "SS BSS ENT BE BSS ENT BE SE",
        "SS FSS SCA(a):3 FSE SE",
        "SS TAG(foo,t) SE",
        "SS ANC(#0..0) SE",
        "SS SCA(a)",
    ];

    #[test]
    fn lists_are_written_and_scanned_again() {
        for (name, marked, bare, found) in WRITTEN {
            let list = notation::list("", name);
            let texts = [Keys::Marked, Keys::Bare].map(|keys| written(&list, keys).expect(name));
            assert_eq!(texts, [marked, bare], "{name}");
            assert_eq!([scanned(&list, marked), scanned(&list, bare)], found, "{name}");
            assert_eq!(spelt(&list), name);
        }
    }

    #[test]
    fn lists_that_no_text_stands_for_have_none() {
        for name in TEXTLESS {
            let list = notation::list("", name);
            assert_eq!(
                [Keys::Marked, Keys::Bare].map(|keys| written(&list, keys)),
                [None, None],
                "{name}"
            );
        }
    }

    #[test]
    fn a_text_is_a_line_with_its_answer() {
        let (mut seen, mut out) = (HashSet::new(), Vec::new());
        let mut page = Page::new("one", &mut seen, &mut out);
        for name in ["SS ANC(x) SCA(a):2 SE", "SS ANC(x) SCA(a):2 SE", "SS FSS SE", "SS BSS BE SE"]
        {
            page.list(&notation::list("", name)).expect("a list in memory");
        }
        page.end().expect("a line in memory");
        let lines = r#"{"plan": "one", "list": "SS ANC(x) SCA(a):2 SE", "text": "&x \"a\"\u000a", "scanned": "same", "number": 0, "events": ["+STR", "+DOC", "=VAL &1 \"a", "-DOC", "-STR"]}
{"plan": "one", "lists": 2, "textless": 1}
"#;
        assert_eq!(String::from_utf8(out).expect("letters"), lines);
    }
}
