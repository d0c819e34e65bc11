//! Stand-ins for input.rs: an input is a list, and the way in which its texts are handed over.
use crate::list::List;
use std::borrow::Cow;

/// What the feeder asks of its input. The defaults serve the inputs that parser.rs names and nobody makes.
pub trait Input {
    fn list(&self) -> List {
        List::EMPTY
    }

    /// A text of the list as a token holds it.
    fn hold(&self, text: &'static str) -> Cow<'static, str> {
        text.into()
    }
}

/// As the published scanner: each text is a String of its own.
#[derive(Clone, Copy, Debug)]
pub struct Owned(pub List);

impl Input for Owned {
    fn list(&self) -> List {
        self.0
    }

    fn hold(&self, text: &'static str) -> Cow<'static, str> {
        text.to_owned().into()
    }
}

/// As lean as the types of the tokens allow: texts are borrowed, but for tags, which are Strings by their type.
#[derive(Clone, Copy, Debug)]
pub struct Lean(pub List);

impl Input for Lean {
    fn list(&self) -> List {
        self.0
    }
}

/// Named by parser.rs, never made.
pub struct BufferedInput<T>(std::marker::PhantomData<T>);

impl<T> BufferedInput<T> {
    pub fn new(_: T) -> Self {
        unimplemented!("only lists are fed")
    }
}

impl<T> Input for BufferedInput<T> {}

pub mod str {
    /// Named by parser.rs, never made.
    pub struct StrInput<'a>(std::marker::PhantomData<&'a ()>);

    impl<'a> StrInput<'a> {
        pub fn new(_: &'a str) -> Self {
            unimplemented!("only lists are fed")
        }
    }

    impl super::Input for StrInput<'_> {}
}
