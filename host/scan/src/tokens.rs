//! Which token of scanner.rs is which kind of document 01.
use crate::scanner::{ScalarStyle, TokenType};
use records::kinds;

/// The styles of a Scalar in the order of document 01.
pub const STYLES: [ScalarStyle; 5] = [
    ScalarStyle::Plain,
    ScalarStyle::SingleQuoted,
    ScalarStyle::DoubleQuoted,
    ScalarStyle::Literal,
    ScalarStyle::Folded,
];

/// The number of a style.
pub fn style_number(style: ScalarStyle) -> u32 {
    let number = STYLES.iter().position(|known| *known == style);
    number.expect("a style of scanner.rs") as u32
}

/// One list of the kinds that carry no text, read in both directions.
macro_rules! plain_kinds {
    ($($kind:ident $token:ident,)*) => {
        /// The token of a kind that carries no text. Inlined: a feeder that is measured calls it for most tokens.
        #[inline]
        pub fn plain_token(kind: u32) -> Option<TokenType<'static>> {
            match kind {
                $(kinds::$kind => Some(TokenType::$token),)*
                _ => None,
            }
        }

        /// The kind of a token that carries no text.
        pub fn plain_kind(token: &TokenType) -> Option<u32> {
            match token {
                $(TokenType::$token => Some(kinds::$kind),)*
                _ => None,
            }
        }
    };
}

plain_kinds! {
    STREAM_END StreamEnd,
    DOCUMENT_START DocumentStart,
    DOCUMENT_END DocumentEnd,
    BYTE_ORDER_MARK ByteOrderMark,
    BLOCK_SEQUENCE_START BlockSequenceStart,
    BLOCK_MAPPING_START BlockMappingStart,
    BLOCK_END BlockEnd,
    FLOW_SEQUENCE_START FlowSequenceStart,
    FLOW_SEQUENCE_END FlowSequenceEnd,
    FLOW_MAPPING_START FlowMappingStart,
    FLOW_MAPPING_END FlowMappingEnd,
    BLOCK_ENTRY BlockEntry,
    FLOW_ENTRY FlowEntry,
    KEY Key,
    VALUE Value,
}
