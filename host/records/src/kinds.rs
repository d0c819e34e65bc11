//! The kinds of tokens and events: one table each, with what a kind uses.

/// The fields of a token record that a kind uses besides its positions.
#[derive(Clone, Copy, PartialEq, Eq, Debug)]
pub enum Uses {
    Nothing,
    /// Range a.
    Name,
    /// Ranges a and b.
    Pair,
    /// Range a and the style.
    Value,
}

/// A kind of token: its name in document 01 and a short one for lists written by hand.
#[derive(Clone, Copy, Debug)]
pub struct TokenKind {
    pub name: &'static str,
    pub short: &'static str,
    pub uses: Uses,
}

macro_rules! token_kinds {
    ($($constant:ident = $number:literal, $name:literal, $short:literal, $uses:ident;)*) => {
        $(pub const $constant: u32 = $number;)*
        /// Indexed by kind; entry 0 stands for every number that is no kind.
        pub const TOKENS: [TokenKind; 24] = {
            let mut all = [TokenKind { name: "?", short: "?", uses: Uses::Nothing }; 24];
            $(all[$number] = TokenKind { name: $name, short: $short, uses: Uses::$uses };)*
            all
        };
    };
}

token_kinds! {
    STREAM_START = 1, "StreamStart", "SS", Nothing;
    STREAM_END = 2, "StreamEnd", "SE", Nothing;
    VERSION_DIRECTIVE = 3, "VersionDirective", "VD", Nothing;
    TAG_DIRECTIVE = 4, "TagDirective", "TD", Pair;
    RESERVED_DIRECTIVE = 5, "ReservedDirective", "RD", Nothing;
    DOCUMENT_START = 6, "DocumentStart", "DS", Nothing;
    DOCUMENT_END = 7, "DocumentEnd", "DE", Nothing;
    BYTE_ORDER_MARK = 8, "ByteOrderMark", "BOM", Nothing;
    BLOCK_SEQUENCE_START = 9, "BlockSequenceStart", "BSS", Nothing;
    BLOCK_MAPPING_START = 10, "BlockMappingStart", "BMS", Nothing;
    BLOCK_END = 11, "BlockEnd", "BE", Nothing;
    FLOW_SEQUENCE_START = 12, "FlowSequenceStart", "FSS", Nothing;
    FLOW_SEQUENCE_END = 13, "FlowSequenceEnd", "FSE", Nothing;
    FLOW_MAPPING_START = 14, "FlowMappingStart", "FMS", Nothing;
    FLOW_MAPPING_END = 15, "FlowMappingEnd", "FME", Nothing;
    BLOCK_ENTRY = 16, "BlockEntry", "ENT", Nothing;
    FLOW_ENTRY = 17, "FlowEntry", "FEN", Nothing;
    KEY = 18, "Key", "KEY", Nothing;
    VALUE = 19, "Value", "VAL", Nothing;
    ALIAS = 20, "Alias", "ALI", Name;
    ANCHOR = 21, "Anchor", "ANC", Name;
    TAG = 22, "Tag", "TAG", Pair;
    SCALAR = 23, "Scalar", "SCA", Value;
}

/// The last kind of token.
pub const LAST_KIND: u32 = SCALAR;
/// The last style of a Scalar.
pub const LAST_STYLE: u32 = 4;

/// What the table says of a kind; any number may be asked for.
pub fn token_kind(kind: u32) -> TokenKind {
    let known = usize::try_from(kind).ok().and_then(|i| TOKENS.get(i));
    *known.unwrap_or(&TOKENS[0])
}

/// Kinds of events.
pub mod event {
    macro_rules! event_kinds {
        ($($constant:ident = $number:literal, $name:literal;)*) => {
            $(pub const $constant: u32 = $number;)*
            /// Indexed by kind; entry 0 stands for every number that is no kind.
            pub const NAMES: [&str; 11] = {
                let mut all = ["?"; 11];
                $(all[$number] = $name;)*
                all
            };
        };
    }

    event_kinds! {
        STREAM_START = 1, "StreamStart";
        STREAM_END = 2, "StreamEnd";
        DOCUMENT_START = 3, "DocumentStart";
        DOCUMENT_END = 4, "DocumentEnd";
        ALIAS = 5, "Alias";
        SCALAR = 6, "Scalar";
        SEQUENCE_START = 7, "SequenceStart";
        SEQUENCE_END = 8, "SequenceEnd";
        MAPPING_START = 9, "MappingStart";
        MAPPING_END = 10, "MappingEnd";
    }
}
