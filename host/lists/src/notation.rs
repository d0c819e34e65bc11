//! Lists written by hand: `SS FSS KEY SCA(a) VAL TAG(!e!,t) SCA@4-5(#2..3):1 FSE SE`.
//!
//! A token is the short name of its kind, perhaps `@start-end`, perhaps its one or two texts in parentheses, perhaps a
//! colon and the style. Token i stands at 10i to 10i+5 unless positions are given. A text is appended to the text of
//! the list, so equal texts have ranges of their own; `#from..to` is a range as it stands.
use crate::list::List;
use records::kinds::TOKENS;
use records::{Range, Tok};

/// Reads a list; `text` stands before the texts that the tokens bring along.
///
/// # Panics
/// On a mistake in the notation: lists are part of the source.
pub fn list(text: &str, tokens: &str) -> List {
    let mut list = List { tokens: Vec::new(), text: text.as_bytes().to_vec() };
    let mut spans = Vec::new();
    for word in tokens.split_whitespace() {
        let read = token(&mut list, word);
        let (token, span) = read.unwrap_or_else(|| panic!("not a token: {word}"));
        list.tokens.push(token);
        spans.push(span);
    }
    list.lay_in_steps();
    for (token, span) in list.tokens.iter_mut().zip(spans) {
        if let Some(span) = span {
            *token = token.at(span.from, span.to);
        }
    }
    list
}

fn token(list: &mut List, word: &str) -> Option<(Tok, Option<Range>)> {
    let (word, style) = match word.rsplit_once("):") {
        Some((head, style)) => (format!("{head})"), style.parse().ok()?),
        None => (word.to_owned(), 0),
    };
    let (head, texts) = match word.strip_suffix(')') {
        Some(open) => open.split_once('(').map(|(head, texts)| (head, Some(texts)))?,
        None => (word.as_str(), None),
    };
    let (name, span) = match head.split_once('@') {
        Some((name, span)) => (name, Some(numbers(span, "-")?)),
        None => (head, None),
    };
    let kind = TOKENS.iter().position(|kind| kind.short == name)?;
    let mut token = Tok { style, ..Tok::new(kind as u32) };
    if let Some(texts) = texts {
        let (a, b) = texts.split_once(',').unwrap_or((texts, "#0..0"));
        token.a = range(list, a)?;
        token.b = range(list, b)?;
    }
    Some((token, span))
}

fn range(list: &mut List, text: &str) -> Option<Range> {
    match text.strip_prefix('#') {
        Some(range) => numbers(range, ".."),
        None => Some(list.append(text.as_bytes())),
    }
}

fn numbers(pair: &str, between: &str) -> Option<Range> {
    let (from, to) = pair.split_once(between)?;
    Some(Range::new(from.parse().ok()?, to.parse().ok()?))
}
