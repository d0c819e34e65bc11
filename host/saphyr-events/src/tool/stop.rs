//! How the command ends when it does not end well.

/// What is said on standard error, and the exit code.
#[derive(Debug, PartialEq, Eq)]
pub struct Stop {
    pub code: u8,
    pub message: String,
}

impl Stop {
    /// The text was refused: by the machine, by the scanner, or because it is too large or no text. The message begins
    /// with the place, as a compiler's does, so that an editor can go there.
    pub fn refused(message: String) -> Stop {
        Stop { code: 1, message }
    }

    /// The command could not do its work: wrong words, a file that cannot be read, no library.
    pub fn unable(message: &str) -> Stop {
        Stop { code: 2, message: format!("saphyr-events: {message}") }
    }
}
