//! Sizes and limits of document 01, in bytes and places, and the one way numbers are stored.

/// Bytes of a token record.
pub const TOKEN: usize = 32;
/// Bytes of an event record.
pub const EVENT: usize = 48;
/// Bytes of an open state's place.
pub const STATE: usize = 8;
/// Bytes of an anchor's place.
pub const ANCHOR: usize = 12;
/// Bytes of a tag handle's place.
pub const HANDLE: usize = 16;
/// Bytes of the answer: number, count, place.
pub const ANSWER: usize = 12;
/// More tokens are answered 26.
pub const MAX_TOKENS: usize = 65_536;
/// More bytes of text are answered 27.
pub const MAX_TEXT: usize = 16_777_216;
/// The prefix that tag source 1 stands for.
pub const CORE_PREFIX: &[u8] = b"tag:yaml.org,2002:";

/// The number stored at byte `at`.
pub fn word(bytes: &[u8], at: usize) -> u32 {
    u32::from_le_bytes([bytes[at], bytes[at + 1], bytes[at + 2], bytes[at + 3]])
}

/// The first `N` numbers of a record.
pub fn words<const N: usize>(record: &[u8]) -> [u32; N] {
    std::array::from_fn(|i| word(record, 4 * i))
}

/// Appends each number, little-endian.
pub fn put_words(bytes: &mut Vec<u8>, numbers: &[u32]) {
    for number in numbers {
        bytes.extend_from_slice(&number.to_le_bytes());
    }
}

/// A length as a number of a record. Lists and texts are far below 4 GiB.
pub fn length(bytes: usize) -> u32 {
    u32::try_from(bytes).expect("a length under 4 GiB")
}
