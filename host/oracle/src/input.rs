//! Stand-ins for input.rs: an input is a token list with its text.
use crate::reading::Reading;
use records::{Range, Rooms, Tok};

/// What the list feeder asks of its input. The defaults serve the inputs that parser.rs names and nobody makes.
pub trait Input {
    fn list(&self) -> &[Tok] {
        &[]
    }

    fn string(&self, _: Range) -> String {
        String::new()
    }

    fn rooms(&self) -> Rooms {
        Rooms::ENDLESS
    }
}

/// A sound list: every used range lies inside the text.
#[derive(Clone, Copy, Debug)]
pub struct ListInput<'a> {
    pub list: &'a [Tok],
    pub text: &'a [u8],
    pub reading: Reading,
    pub rooms: Rooms,
}

impl Input for ListInput<'_> {
    fn list(&self) -> &[Tok] {
        self.list
    }

    fn string(&self, range: Range) -> String {
        let bytes = range.cut(self.text).expect("the first checks passed");
        self.reading.string(bytes)
    }

    fn rooms(&self) -> Rooms {
        self.rooms
    }
}

/// Named by parser.rs, never made.
pub struct BufferedInput<T>(std::marker::PhantomData<T>);

impl<T> BufferedInput<T> {
    pub fn new(_: T) -> Self {
        unimplemented!("only lists are fed")
    }
}

impl<T> Input for BufferedInput<T> {}

pub mod str {
    /// Named by parser.rs, never made.
    pub struct StrInput<'a>(std::marker::PhantomData<&'a ()>);

    impl<'a> StrInput<'a> {
        pub fn new(_: &'a str) -> Self {
            unimplemented!("only lists are fed")
        }
    }

    impl super::Input for StrInput<'_> {}
}
