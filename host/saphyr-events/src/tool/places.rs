//! Positions of the scanner, which counts characters, as lines and columns.

/// A line and a column, both from 1. Columns are characters; a byte order mark takes none.
#[derive(Clone, Copy, Debug, PartialEq, Eq)]
pub struct Spot {
    pub line: usize,
    pub column: usize,
}

/// Where the lines of a text begin.
pub struct Places<'t> {
    text: &'t str,
    /// Of each line the characters and the bytes before it.
    lines: Vec<(usize, usize)>,
    characters: usize,
}

const MARK: char = '\u{feff}';

impl<'t> Places<'t> {
    /// Lines end in LF, CR LF or CR, as the scanner has it.
    pub fn new(text: &'t str) -> Places<'t> {
        let (mut lines, mut characters) = (vec![(0, 0)], 0);
        for (at, c) in text.char_indices() {
            characters += 1;
            let next = text.as_bytes().get(at + 1);
            if c == '\n' || (c == '\r' && next != Some(&b'\n')) {
                lines.push((characters, at + 1));
            }
        }
        Places { text, lines, characters }
    }

    /// The spot of a position; one past the end is the end.
    pub fn spot(&self, position: u32) -> Spot {
        let position = self.characters.min(position as usize);
        let line = self.lines.partition_point(|(before, _)| *before <= position);
        let (before, at) = self.lines[line - 1];
        let marks = usize::from(position > before && self.text[at..].starts_with(MARK));
        let column = position - before - marks;
        Spot { line, column: column + 1 }
    }

    pub fn is_end(&self, position: u32) -> bool {
        position as usize >= self.characters
    }

    /// A line without its end.
    pub fn line(&self, line: usize) -> &'t str {
        let from = self.lines[line - 1].1;
        let to = self.lines.get(line).map_or(self.text.len(), |(_, at)| *at);
        self.text[from..to].trim_end_matches(['\r', '\n'])
    }

    /// The line of a spot and a caret under it, each in a line of its own.
    pub fn caret(&self, spot: Spot) -> String {
        let characters: Vec<char> = self.line(spot.line).chars().filter(|c| *c != MARK).collect();
        let under = characters.len().min(spot.column - 1);
        // A long line is shown around the caret.
        let from = if under > WIDTH { under - WIDTH / 2 } else { 0 };
        let to = characters.len().min(from + 2 * WIDTH);
        let before = if from > 0 { "..." } else { "" };
        let after = if to < characters.len() { "..." } else { "" };
        let shown: String = characters[from..to].iter().copied().map(printable).collect();
        let padding: String = characters[from..under].iter().copied().map(blank).collect();
        let dots = " ".repeat(before.len());
        format!("    {before}{shown}{after}\n    {dots}{padding}^")
    }
}

/// Half of the characters of a line that are shown.
const WIDTH: usize = 60;

/// Control characters would move a terminal's cursor.
pub fn printable(c: char) -> char {
    if c.is_control() && c != '\t' {
        '\u{fffd}'
    } else {
        c
    }
}

/// A tab stays one, so that the caret stands under its character.
fn blank(c: char) -> char {
    if c == '\t' {
        '\t'
    } else {
        ' '
    }
}

#[cfg(test)]
mod tests {
    use super::*;

    fn spots(text: &str) -> Vec<(usize, usize)> {
        let places = Places::new(text);
        let spots = (0..=text.chars().count()).map(|i| places.spot(i as u32));
        spots.map(|spot| (spot.line, spot.column)).collect()
    }

    #[test]
    fn lines_end_in_each_of_three_ways() {
        assert_eq!(spots("a\nb"), [(1, 1), (1, 2), (2, 1), (2, 2)]);
        assert_eq!(spots("a\rb"), [(1, 1), (1, 2), (2, 1), (2, 2)]);
        assert_eq!(spots("a\r\nb"), [(1, 1), (1, 2), (1, 3), (2, 1), (2, 2)]);
        assert_eq!(spots("\n\n"), [(1, 1), (2, 1), (3, 1)]);
        assert_eq!(spots(""), [(1, 1)]);
    }

    #[test]
    fn columns_are_characters_and_a_mark_takes_none() {
        assert_eq!(spots("\u{e9}\u{65e5}x"), [(1, 1), (1, 2), (1, 3), (1, 4)]);
        assert_eq!(spots("\u{feff}ab"), [(1, 1), (1, 1), (1, 2), (1, 3)]);
    }

    #[test]
    fn the_caret_stands_under_its_character() {
        let caret = |text: &str, position| {
            let places = Places::new(text);
            places.caret(places.spot(position))
        };
        assert_eq!(caret("a: b\nc: d\n", 8), "    c: d\n       ^");
        assert_eq!(caret("\ta: b", 4), "    \ta: b\n    \t   ^");
        assert_eq!(caret("a\n", 2), "    \n    ^");
        assert_eq!(caret("a\r\nb", 2), "    a\n     ^");
        assert_eq!(caret("ab", 99), "    ab\n      ^");
        assert_eq!(caret("a\u{1b}b", 2), "    a\u{fffd}b\n      ^");
    }

    #[test]
    fn a_long_line_is_shown_around_the_caret() {
        let text = format!("{}X{}", "a".repeat(200), "b".repeat(200));
        let places = Places::new(&text);
        let shown = places.caret(places.spot(200));
        let expected =
            format!("    ...{}X{}...\n       {}^", "a".repeat(30), "b".repeat(89), " ".repeat(30));
        assert_eq!(shown, expected);
    }
}
