//! Reading and writing frames, with messages that say where.
use records::{read_frame, Answer, Case, Frame};
use std::fs::File;
use std::io::{self, BufReader, Error, ErrorKind, Read, Write};

/// A mistake in the words of the command.
pub fn usage(message: &str) -> Error {
    Error::new(ErrorKind::InvalidInput, format!("{message} (lists --help)"))
}

/// The same error, said of something.
pub fn about(what: &str, error: &Error) -> Error {
    Error::new(error.kind(), format!("{what}: {error}"))
}

pub fn print(text: &str) -> io::Result<()> {
    io::stdout().lock().write_all(text.as_bytes())
}

/// Frames of one input, counted for messages.
pub struct Frames<R> {
    name: String,
    input: R,
    count: usize,
}

impl Frames<BufReader<io::StdinLock<'static>>> {
    pub fn standard() -> Self {
        let input = BufReader::new(io::stdin().lock());
        Frames { name: "standard input".to_owned(), input, count: 0 }
    }
}

impl Frames<BufReader<File>> {
    pub fn open(path: &str) -> io::Result<Self> {
        let file = File::open(path).map_err(|error| about(path, &error))?;
        Ok(Frames { name: path.to_owned(), input: BufReader::new(file), count: 0 })
    }
}

impl<R: Read> Frames<R> {
    pub fn next(&mut self) -> io::Result<Option<Frame>> {
        self.count += 1;
        let frame = read_frame(&mut self.input);
        frame.map_err(|error| about(&self.place(), &error))
    }

    pub fn next_case(&mut self) -> io::Result<Option<Case>> {
        match self.next()? {
            Some(Frame::Case(case)) => Ok(Some(case)),
            Some(Frame::Answer(_)) => Err(self.mismatch("an answer where a case is wanted")),
            None => Ok(None),
        }
    }

    pub fn next_answer(&mut self) -> io::Result<Option<Answer>> {
        match self.next()? {
            Some(Frame::Answer(answer)) => Ok(Some(answer)),
            Some(Frame::Case(_)) => Err(self.mismatch("a case where an answer is wanted")),
            None => Ok(None),
        }
    }

    pub fn mismatch(&self, words: &str) -> Error {
        Error::new(ErrorKind::InvalidData, format!("{}: {words}", self.place()))
    }

    fn place(&self) -> String {
        format!("{}, frame {}", self.name, self.count)
    }
}
