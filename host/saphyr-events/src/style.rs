//! How a scalar was written.

/// The style of a scalar.
#[derive(Clone, Copy, Debug, PartialEq, Eq, Hash)]
pub enum Style {
    Plain,
    SingleQuoted,
    DoubleQuoted,
    Literal,
    Folded,
}

impl Style {
    /// In the order of their numbers.
    pub const ALL: [Style; 5] =
        [Style::Plain, Style::SingleQuoted, Style::DoubleQuoted, Style::Literal, Style::Folded];

    /// The number in a record.
    pub const fn number(self) -> u32 {
        self as u32
    }

    /// The style behind a number.
    pub fn of(number: u32) -> Option<Style> {
        Style::ALL.get(usize::try_from(number).ok()?).copied()
    }
}
