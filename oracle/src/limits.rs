//! The numbers that the documents set, in one place: the most that words, lines, labels and
//! books may have, and the sizes of what is handed back.

/// "At most 64 code values make a word."
pub const WORD_LIMIT: usize = 64;

/// "a line over 192 bytes" is refused: three bytes a value.
pub const LINE_LIMIT: usize = 3 * WORD_LIMIT;

/// "The longest spelled word has 190 values": a letter, and behind it only 103F, each of
/// which is spelled 101E 103A 101E.
pub const SPELLED_LIMIT: usize = 190;

/// Document 02: a label "has at most ten syllables".
pub const LABEL_LIMIT: usize = 10;

/// The values of the longest skeleton, which no document gives. A label has it that is as
/// long as a word may be, and all of whose syllables but one begin with 1029, which becomes
/// two values.
pub const SKELETON_LIMIT: usize = 73;

/// The bytes of a syllable's record. Document 02: "eight bytes in all".
pub const RECORD_SIZE: usize = 8;

/// The weights of a syllable, a byte each. Document 02: "A key gains a sixth weight".
pub const WEIGHTS: usize = 6;

/// The bytes of a key, used or not. Document 02: "A key then needs 384 bytes".
pub const KEY_SIZE: usize = WEIGHTS * WORD_LIMIT;

/// "A book is a lent buffer of at most 16,384 bytes".
pub const BOOK_LIMIT: usize = 16_384;

/// The bytes of a book's record before its word: "the two bytes 4D 57", "the count n of code
/// values (one byte, …), the stock number (four bytes, …)".
pub const BOOK_RECORD_HEAD: usize = 2 + 1 + 4;

/// The most records of a book: each has a word of one value at least.
pub const BOOK_RECORDS_LIMIT: usize = BOOK_LIMIT / (BOOK_RECORD_HEAD + 1);
