//! The lists that are measured. But for one shape they are YAML texts through the published scanner.
use crate::list::List;
use records::kinds::{FLOW_SEQUENCE_END, FLOW_SEQUENCE_START, STREAM_END, STREAM_START};
use records::Tok;
use scan::{scan, scan_first};

/// Lists of one shape, in several sizes.
#[derive(Clone, Copy, Debug)]
pub struct Shape {
    pub name: &'static str,
    pub about: &'static str,
    /// Whether the sizes are numbers of tokens; else of what the shape is named for.
    pub of_tokens: bool,
    pub sizes: &'static [usize],
    make: fn(usize) -> List,
}

/// Numbers of tokens.
const TOKENS: &[usize] = &[1_000, 4_000, 16_000, 65_536];

/// All of them, ordinary lists first.
pub const SHAPES: [Shape; 9] = [
    of_tokens("config", "block mappings and sequences, a pipeline file", |most| fit(config, most)),
    of_tokens("flow", "flow sequences and mappings, as JSON has them", |most| fit(flow, most)),
    of_tokens("documents", "small mappings, a document each", |most| fit(documents, most)),
    of_tokens("empty-documents", "documents without content", |most| fit(empty_documents, most)),
    of_tokens("deep-block", "a sequence in a sequence and so on", |most| fit(deep_block, most)),
    of_tokens("deep-flow", "the same in flow, 2 tokens for each level", deep_flow),
    Shape {
        name: "anchors",
        about: "a sequence of anchored nodes, an alias for each 12",
        of_tokens: false,
        sizes: &[1_000, 9_000, 30_000],
        make: |count| all(&anchors(count)),
    },
    of_tokens("directives", "documents with three %TAG each, and tags", |most| {
        fit(directives, most)
    }),
    Shape {
        name: "many-directives",
        about: "one document with many %TAG, and a tag for each 4",
        of_tokens: false,
        sizes: &[250, 1_000, 4_000],
        make: |count| all(&many_directives(count)),
    },
];

const fn of_tokens(name: &'static str, about: &'static str, make: fn(usize) -> List) -> Shape {
    Shape { name, about, of_tokens: true, sizes: TOKENS, make }
}

impl Shape {
    /// The list of a size; of tokens, as many as the shape allows that are not more.
    pub fn list(&self, size: usize) -> List {
        (self.make)(size)
    }
}

/// All tokens of a text.
fn all(text: &str) -> List {
    let scan = scan(text);
    assert!(scan.error.is_none(), "the scanner refuses a text of ours: {:?}", scan.error);
    List::new(&scan.list, scan.text)
}

/// The text with the most parts whose tokens are not more than `most`.
fn fit(text: fn(usize) -> String, most: usize) -> List {
    let fits = |parts: usize| scan_first(&text(parts), most + 1).list.len() <= most;
    // A part has at least one token, so the first number fits and the last does not.
    let (mut low, mut high) = (0, most + 1);
    while high - low > 1 {
        let middle = low.midpoint(high);
        *(if fits(middle) { &mut low } else { &mut high }) = middle;
    }
    all(&text(low))
}

/// The lines of a step of a pipeline file; cut off after any of these parts it is still one.
const STEP: [&str; 13] = [
    "  - name: archive-#\n",
    "    image: 'tools/archive:#'\n",
    "    when:\n",
    "      branch: main\n",
    "      manual: false\n",
    "    run: |\n      make fetch\n      make check\n",
    "    env:\n",
    "      TARGET: /srv/archive/#\n",
    "      TITLE: \"records of # rooms\"\n",
    "    needs: [fetch, check]\n",
    "    args:\n",
    "    - --quiet\n",
    "    - --count=#\n",
];

fn config(parts: usize) -> String {
    let lines = (0..parts).map(|i| numbered(STEP[i % STEP.len()], i / STEP.len()));
    lines.fold("version: 2\nsteps:\n".to_owned(), |text, line| text + &line)
}

fn flow(parts: usize) -> String {
    let entry =
        "{\"id\": #, \"name\": \"room #\", \"ports\": [80, 443], \"up\": true, \"next\": null}";
    let entries: Vec<String> = (0..parts).map(|i| numbered(entry, i)).collect();
    format!("[{}]\n", entries.join(",\n"))
}

fn documents(parts: usize) -> String {
    let document = "---\nname: archive-#\nfrom: /srv/in/#\nlevel: 3\n";
    (0..parts).map(|i| numbered(document, i)).collect()
}

fn empty_documents(parts: usize) -> String {
    "---\n".repeat(parts)
}

fn deep_block(parts: usize) -> String {
    "- ".repeat(parts) + "x\n"
}

/// The scanner takes at most 255 levels of flow, so these tokens are written here.
fn deep_flow(most: usize) -> List {
    let depth = (most / 2).saturating_sub(1);
    let levels = |kind| std::iter::repeat_n(kind, depth);
    let kinds = levels(FLOW_SEQUENCE_START).chain(levels(FLOW_SEQUENCE_END));
    let inside = kinds.zip(0..).map(|(kind, at)| Tok::new(kind).at(at, at + 1));
    let end = 2 * depth as u32;
    let tokens = [Tok::new(STREAM_START)].into_iter().chain(inside);
    let tokens: Vec<Tok> = tokens.chain([Tok::new(STREAM_END).at(end, end)]).collect();
    List::new(&tokens, "[".repeat(depth) + &"]".repeat(depth))
}

/// The nodes are empty: 30,000 anchors leave room for two tokens each.
fn anchors(count: usize) -> String {
    let mut text = String::new();
    for i in 0..count {
        text += &numbered("- &name-#\n", i);
        if i % 12 == 11 {
            text += &numbered("- *name-#\n", spread(i, i + 1));
        }
    }
    text
}

fn directives(parts: usize) -> String {
    let document = "%YAML 1.2\n%TAG !a! tag:example.org,#:\n%TAG !b! tag:example.org,2026:\n%TAG !c! !local-\n---\n\
        - !a!room #\n- !b!name x\n- !c!size 3\n- !!str y\n...\n";
    (0..parts).map(|i| numbered(document, i)).collect()
}

fn many_directives(count: usize) -> String {
    let directive = |i| numbered("%TAG !h#! tag:example.org,#:\n", i);
    let node = |i| numbered("- !h#!room x\n", spread(i, count));
    let text: String = (0..count).map(directive).chain(["---\n".to_owned()]).collect();
    (0..count / 4).map(node).fold(text, |text, line| text + &line)
}

/// A number under `limit` for each `i`, far from that of the one before.
fn spread(i: usize, limit: usize) -> usize {
    i * 7_919 % limit
}

fn numbered(words: &str, number: usize) -> String {
    words.replace('#', &number.to_string())
}
