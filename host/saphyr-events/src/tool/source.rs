//! The text that is asked about, and the token list that the scanner makes of it.
use super::options::Input;
use super::places::{Places, Spot};
use super::stop::Stop;
use saphyr_events::{Place, Reason, Refusal, MAX_TEXT, MAX_TOKENS};
use scan::{scan_first, Scan};
use std::fs::File;
use std::io::{self, ErrorKind, Read};

/// A text and the name that messages call it by.
pub struct Source {
    pub name: String,
    pub text: String,
}

impl Source {
    pub fn read(input: &Input) -> Result<Source, Stop> {
        let name = input.name();
        let bytes = bytes(input).map_err(|error| Stop::unable(&unreadable(&name, &error)))?;
        if bytes.len() > MAX_TEXT {
            return Err(Stop::refused(format!("{name}: {}", whole(Reason::TooMuchText))));
        }
        match String::from_utf8(bytes) {
            Ok(text) => Ok(Source { name, text }),
            Err(error) => Err(Stop::refused(not_utf8(&name, error.as_bytes()))),
        }
    }

    /// The token list; the limits of the machine hold for every command.
    pub fn scan(&self) -> Result<Scan, Stop> {
        let scanned = scan_first(&self.text, MAX_TOKENS + 1);
        let over = |reason| Err(Stop::refused(format!("{}: {}", self.name, whole(reason))));
        if scanned.list.len() > MAX_TOKENS {
            return over(Reason::TooManyTokens);
        }
        if scanned.text.len() > MAX_TEXT {
            return over(Reason::TooMuchText);
        }
        Ok(scanned)
    }

    /// A message about a position: `name:line:column: words`, the line and a caret.
    pub fn refused_at(&self, position: u32, words: &str) -> Stop {
        let places = Places::new(&self.text);
        let spot = places.spot(position);
        // The last line may be empty, and a caret under nothing says little.
        let end = if places.is_end(position) { " (the end of the text)" } else { "" };
        Stop::refused(format!("{}: {words}{end}\n{}", self.at(spot), places.caret(spot)))
    }

    pub fn at(&self, spot: Spot) -> String {
        format!("{}:{}:{}", self.name, spot.line, spot.column)
    }
}

/// One byte more than the limit is read, to know that there is more.
fn bytes(input: &Input) -> io::Result<Vec<u8>> {
    let mut bytes = Vec::new();
    let most = MAX_TEXT as u64 + 1;
    match input {
        Input::Standard => io::stdin().lock().take(most).read_to_end(&mut bytes)?,
        Input::File(path) => File::open(path)?.take(most).read_to_end(&mut bytes)?,
    };
    Ok(bytes)
}

fn unreadable(name: &str, error: &io::Error) -> String {
    match error.kind() {
        ErrorKind::NotFound => format!("{name}: there is no such file"),
        ErrorKind::IsADirectory => format!("{name}: a directory, not a file"),
        ErrorKind::PermissionDenied => format!("{name}: may not be read"),
        _ => format!("{name}: cannot be read: {error}"),
    }
}

fn whole(reason: Reason) -> String {
    Refusal { reason, place: Place::None }.to_string()
}

fn not_utf8(name: &str, bytes: &[u8]) -> String {
    let valid = bytes.utf8_chunks().next().map_or("", |chunk| chunk.valid());
    let spot = Places::new(valid).spot(valid.chars().count() as u32);
    let byte = bytes.get(valid.len()).copied().unwrap_or_default();
    let guess = match bytes {
        [0xFF, 0xFE, ..] | [0xFE, 0xFF, ..] => "; it seems to be UTF-16",
        _ => "",
    };
    let Spot { line, column } = spot;
    format!("{name}:{line}:{column}: not UTF-8: byte {byte:#04x} at offset {}{guess}", valid.len())
}

#[cfg(test)]
mod tests {
    use super::*;

    /// A test may run as a user who may read everything, so this one is asked for by its kind.
    #[test]
    fn a_file_that_may_not_be_read_is_said_so() {
        let error = io::Error::from(ErrorKind::PermissionDenied);
        assert_eq!(unreadable("a.yaml", &error), "a.yaml: may not be read");
    }
}
