//! What a record of a book has.

use jogcairn::{BOOK_RECORD_HEAD, WORD_LIMIT};

/// Whether a whole record begins the bytes, and its count of values.
pub fn record(bytes: &[u8]) -> Option<usize> {
    let [b'M', b'W' | b'-', count, ..] = *bytes else { return None };
    let count = usize::from(count);
    let is_whole = (1..=WORD_LIMIT).contains(&count) && bytes.len() >= BOOK_RECORD_HEAD + count;
    is_whole.then_some(count)
}

/// The word of the record at the front.
pub fn word(bytes: &[u8]) -> Vec<u16> {
    let count = usize::from(bytes[2]);
    bytes[BOOK_RECORD_HEAD..][..count].iter().map(|&letter| 0x1000 + u16::from(letter)).collect()
}
