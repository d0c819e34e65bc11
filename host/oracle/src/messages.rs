//! The messages of parser.rs and the numbers of document 01.

const NUMBERS: [(&str, u32); 14] = [
    ("did not find expected <stream-start>", 1),
    ("did not find expected <document start>", 2),
    ("duplicate version directive", 3),
    ("the TAG directive must only be given at most once per handle in the same document", 4),
    ("a byte order mark must not appear inside a document", 5),
    ("missing explicit document end marker before directive", 6),
    ("while parsing node, found unknown anchor", 7),
    ("while parsing a node, did not find expected node content", 8),
    ("while parsing a block mapping, did not find expected key", 9),
    ("while parsing a flow mapping, did not find expected ',' or '}'", 10),
    ("while parsing a flow sequence, expected ',' or ']'", 11),
    ("while parsing a block collection, did not find expected '-' indicator", 12),
    ("the handle wasn't declared", 13),
    ("unexpected eof", 14),
];

/// The number of a message; none for a message of the scanner, and for `load`'s own about a document's start, which
/// cannot be met from a fresh parser.
pub fn number_of(message: &str) -> Option<u32> {
    NUMBERS.iter().find(|(known, _)| *known == message).map(|(_, number)| *number)
}
