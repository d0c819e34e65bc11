//! A list as YAML text: flow tokens by their marks, blocks by indentation, each collection on lines of its own.
use crate::list::List;
use records::kinds::*;
use records::{Range, Tok};

/// How a Key is written.
#[derive(Clone, Copy, PartialEq, Eq, Debug)]
pub enum Keys {
    /// Each by `?`.
    Marked,
    /// By nothing where a node on one line and a Value follow, as an implicit key is.
    Bare,
}

/// The text of a list; none where no text would stand for these tokens.
pub fn written(list: &List, keys: Keys) -> Option<String> {
    let mut writer = Writer { list, keys, out: String::new(), open: Vec::new() };
    for at in 0..list.tokens.len() {
        writer.token(at)?;
    }
    // Every text ends the stream.
    (list.tokens.last()?.kind == STREAM_END).then_some(writer.out)
}

/// A collection that is open.
#[derive(Clone, Copy, PartialEq)]
enum Open {
    Sequence,
    /// Whether its last key stands bare and waits for its Value.
    Mapping(bool),
    /// Whether its entry has a Key that waits for its Value.
    Flow(bool),
}

struct Writer<'l> {
    list: &'l List,
    keys: Keys,
    out: String,
    open: Vec<Open>,
}

impl Writer<'_> {
    fn token(&mut self, at: usize) -> Option<()> {
        let token = self.list.tokens[at];
        match token.kind {
            STREAM_START if at == 0 => Some(()),
            _ if at == 0 => None,
            STREAM_END if at + 1 == self.list.tokens.len() => self.end(),
            VERSION_DIRECTIVE..=BYTE_ORDER_MARK => self.between_nodes(&token),
            BLOCK_SEQUENCE_START | BLOCK_MAPPING_START | BLOCK_END | BLOCK_ENTRY => self.block(at),
            KEY | VALUE if matches!(self.open.last(), Some(Open::Flow(_))) => self.flow_pair(at),
            KEY | VALUE => self.pair(at),
            FLOW_SEQUENCE_START..=FLOW_MAPPING_END | FLOW_ENTRY => self.flow(token.kind),
            ALIAS | ANCHOR | TAG => self.put_some(self.name(&token)),
            SCALAR => self.scalar(&token),
            _ => None,
        }
    }

    /// Directives, the two markers of documents, byte order marks: each begins a line.
    fn between_nodes(&mut self, token: &Tok) -> Option<()> {
        self.no_block()?;
        let line = match token.kind {
            VERSION_DIRECTIVE => "%YAML 1.2\n".to_owned(),
            TAG_DIRECTIVE => format!("%TAG {} {}\n", self.word(token.a)?, self.word(token.b)?),
            RESERVED_DIRECTIVE => "%FOO bar\n".to_owned(),
            DOCUMENT_START => "---".to_owned(),
            DOCUMENT_END => "...\n".to_owned(),
            _ => "\u{feff}".to_owned(),
        };
        self.line(0);
        self.out += &line;
        Some(())
    }

    fn block(&mut self, at: usize) -> Option<()> {
        let next = self.list.tokens.get(at + 1).map(|token| token.kind);
        let top = self.open.last().copied();
        match (self.list.tokens[at].kind, next) {
            _ if matches!(top, Some(Open::Flow(_))) => return None,
            // A collection begins with its first entry: nothing is written for it.
            (BLOCK_SEQUENCE_START, Some(BLOCK_ENTRY)) => self.open.push(Open::Sequence),
            (BLOCK_MAPPING_START, Some(KEY | VALUE)) => self.open.push(Open::Mapping(false)),
            // Anything else would go on in the block that ends.
            (
                BLOCK_END,
                Some(STREAM_END..=BYTE_ORDER_MARK | BLOCK_END | BLOCK_ENTRY | KEY | VALUE),
            ) => {
                self.open.pop()?;
            }
            (BLOCK_ENTRY, _) if top.is_some() => {
                self.line(self.column());
                self.out.push('-');
            }
            _ => return None,
        }
        Some(())
    }

    fn pair(&mut self, at: usize) -> Option<()> {
        let key = self.list.tokens[at].kind == KEY;
        let bare = key && self.is_bare(at);
        let column = self.column();
        match self.open.last_mut()? {
            Open::Mapping(open) if *open && !key => {
                *open = false;
                self.put(":");
            }
            Open::Mapping(open) => {
                *open = bare;
                self.line(column);
                self.out += if bare { "" } else { mark(key) };
            }
            _ => return None,
        }
        Some(())
    }

    fn flow_pair(&mut self, at: usize) -> Option<()> {
        let key = self.list.tokens[at].kind == KEY;
        let before = self.list.tokens[at - 1].kind;
        let behind_node = matches!(before, FLOW_SEQUENCE_END | FLOW_MAPPING_END | ALIAS..=SCALAR);
        let top = self.open.last_mut()?;
        // Every scanner puts the Key in where a Value is behind a node.
        if !key && behind_node && *top != Open::Flow(true) {
            return None;
        }
        *top = Open::Flow(key);
        let first = matches!(before, FLOW_SEQUENCE_START | FLOW_MAPPING_START | FLOW_ENTRY);
        if !(key && first && self.is_bare(at)) {
            self.put(mark(key));
        }
        Some(())
    }

    fn flow(&mut self, kind: u32) -> Option<()> {
        match (kind, self.open.last_mut()) {
            (FLOW_SEQUENCE_START | FLOW_MAPPING_START, _) => self.open.push(Open::Flow(false)),
            (FLOW_ENTRY, Some(Open::Flow(key))) => *key = false,
            (FLOW_SEQUENCE_END | FLOW_MAPPING_END, Some(Open::Flow(_))) => drop(self.open.pop()),
            _ => {}
        }
        self.put(match kind {
            FLOW_SEQUENCE_START => "[",
            FLOW_MAPPING_START => "{",
            FLOW_SEQUENCE_END => "]",
            FLOW_MAPPING_END => "}",
            _ => ",",
        });
        Some(())
    }

    fn scalar(&mut self, token: &Tok) -> Option<()> {
        let value = std::str::from_utf8(token.a.cut(&self.list.text)?).ok()?;
        let simple = value.bytes().all(|byte| byte.is_ascii_alphanumeric() || byte == b' ');
        if !simple || (value.is_empty() && !matches!(token.style, 1 | 2)) {
            return None;
        }
        match token.style {
            1 => self.put(&format!("'{value}'")),
            2 => self.put(&format!("\"{value}\"")),
            // A literal or folded scalar has no text in flow.
            3 | 4 if matches!(self.open.last(), Some(Open::Flow(_))) => return None,
            3 | 4 => {
                let indent = " ".repeat(2 * self.blocks() + 1);
                let mark = if token.style == 3 { "|-" } else { ">-" };
                self.put(&format!("{mark}\n{indent}{value}\n"));
            }
            _ => self.put(value),
        }
        Some(())
    }
}

/// Names and tags.
impl Writer<'_> {
    fn name(&self, token: &Tok) -> Option<String> {
        match token.kind {
            ALIAS => Some(format!("*{}", self.word(token.a)?)),
            ANCHOR => Some(format!("&{}", self.word(token.a)?)),
            _ => self.tag(token),
        }
    }

    fn tag(&self, token: &Tok) -> Option<String> {
        let suffix = self.word(token.b)?;
        if token.a.from == token.a.to {
            return Some(if suffix == "!" { suffix.to_owned() } else { format!("!<{suffix}>") });
        }
        let handle = self.word(token.a)?;
        (handle.starts_with('!') && handle.ends_with('!')).then(|| format!("{handle}{suffix}"))
    }

    fn word(&self, range: Range) -> Option<&str> {
        let word = std::str::from_utf8(range.cut(&self.list.text)?).ok()?;
        (!word.is_empty() && word.bytes().all(|byte| byte.is_ascii_graphic())).then_some(word)
    }
}

/// Lines and columns.
impl Writer<'_> {
    fn put_some(&mut self, word: Option<String>) -> Option<()> {
        self.put(&word?);
        Some(())
    }

    fn put(&mut self, word: &str) {
        if !self.out.is_empty() && !self.out.ends_with(['\n', ' ', '\u{feff}']) {
            self.out.push(' ');
        }
        self.out += word;
    }

    /// Begins a line; one that only a byte order mark stands in has just begun.
    fn line(&mut self, column: usize) {
        if !self.out.is_empty() && !self.out.ends_with(['\n', '\u{feff}']) {
            self.out.push('\n');
        }
        self.out += &" ".repeat(column);
    }

    fn blocks(&self) -> usize {
        self.open.iter().filter(|open| !matches!(open, Open::Flow(_))).count()
    }

    fn column(&self) -> usize {
        2 * self.blocks().saturating_sub(1)
    }

    /// The last line of a text has an end.
    fn end(&mut self) -> Option<()> {
        self.no_block()?;
        self.line(0);
        Some(())
    }

    /// The end of a text and the markers of documents close every block by themselves.
    fn no_block(&self) -> Option<()> {
        (self.blocks() == 0).then_some(())
    }
}

fn mark(key: bool) -> &'static str {
    if key {
        "?"
    } else {
        ":"
    }
}

/// Which keys are implicit.
impl Writer<'_> {
    fn is_bare(&self, key: usize) -> bool {
        let kind = |at: usize| self.list.tokens.get(at).map(|token| token.kind);
        let mut end = key + 1;
        while matches!(kind(end), Some(ANCHOR | TAG)) {
            end += 1;
        }
        let content = self.content_end(end);
        let node = content.is_some() || end > key + 1;
        self.keys == Keys::Bare && node && kind(content.unwrap_or(end)) == Some(VALUE)
    }

    /// Where content that stands on one line ends.
    fn content_end(&self, at: usize) -> Option<usize> {
        let mut depth = 0;
        for (i, token) in self.list.tokens.iter().enumerate().skip(at) {
            match token.kind {
                FLOW_SEQUENCE_START | FLOW_MAPPING_START => depth += 1,
                FLOW_SEQUENCE_END | FLOW_MAPPING_END if depth > 0 => depth -= 1,
                SCALAR if token.style > 2 => return None,
                SCALAR | ALIAS => {}
                _ if depth == 0 => return None,
                _ => {}
            }
            if depth == 0 {
                return Some(i + 1);
            }
        }
        None
    }
}
