//! The limits of documents 01 and 02, each in one place.

/// Of a signature text (refusal 1). Document 02, T-11, raised it with the two below.
pub const LONGEST_TEXT: usize = 4096;
/// Of a house text that is written (refusal 21).
pub const LONGEST_HOUSE_TEXT: usize = 4096;
/// Of the pattern bytes in a table, all patterns together.
pub const MOST_PATTERN_BYTES: usize = 4096;
/// What these three were before T-11: nothing is judged by it, but generated texts lie on
/// both sides of it.
pub const FORMER_LONGEST_TEXT: usize = 1024;

pub const LONGEST_NAME: usize = 64;
pub const MOST_PATTERNS: usize = 8;
pub const MOST_TESTS: usize = 16;
pub const MOST_ADDRESSES: usize = 8;

pub const LONGEST_PACKET: usize = 2048;
pub const LONGEST_DECODED: usize = 4096;

pub const LONGEST_BOOK: usize = 65_536;
pub const MOST_RULES: usize = 64;

// A byte of a pattern takes at least one of the text, so no text has too many of them.
const _: () = assert!(LONGEST_TEXT <= MOST_PATTERN_BYTES);
