//! The limits and sizes as the documents give them, each number once more: every other test names
//! them.

mod answers;

use answers::refused;
use jogcairn::{
    book, decode, read, spell, write, BOOK_LIMIT, BOOK_RECORDS_LIMIT, BOOK_RECORD_HEAD, KEY_SIZE,
    LABEL_LIMIT, LINE_LIMIT, RECORD_SIZE, SKELETON_LIMIT, SPELLED_LIMIT, WORD_LIMIT,
};

#[test]
fn limits_are_those_of_the_documents() {
    assert_eq!(WORD_LIMIT, 64);
    assert_eq!(LINE_LIMIT, 192);
    assert_eq!(SPELLED_LIMIT, 190);
    assert_eq!(LABEL_LIMIT, 10);
    assert_eq!(SKELETON_LIMIT, 73);
    assert_eq!(RECORD_SIZE, 8);
    assert_eq!(KEY_SIZE, 384);
    assert_eq!(BOOK_LIMIT, 16_384);
    assert_eq!((BOOK_RECORD_HEAD, BOOK_RECORDS_LIMIT), (7, 2_048));
}

#[test]
fn a_line_has_as_many_bytes_as_the_limit_and_no_more() {
    let mut line = "က".repeat(WORD_LIMIT).into_bytes();
    assert_eq!(line.len(), LINE_LIMIT);
    assert_eq!(decode(&line).unwrap(), [0x1000; WORD_LIMIT]);
    line.push(0xE1);
    assert_eq!(refused(decode(&line)), (1, WORD_LIMIT));
}

#[test]
fn the_longest_spelled_word_has_as_many_values_as_its_limit() {
    let mut word = [0x103F; WORD_LIMIT];
    word[0] = 0x1000;
    let spelled = spell(&word).unwrap();
    assert_eq!((spelled.values().len(), spelled.starts().len()), (SPELLED_LIMIT, WORD_LIMIT));
}

/// Removed records of one value, so many as go into the longest book.
#[test]
fn the_longest_book_has_as_many_records_as_their_limit() {
    let record = *b"M-\x01\0\0\0\0\x15";
    assert_eq!(record.len(), BOOK_RECORD_HEAD + 1);
    let mut book = record.repeat(BOOK_RECORDS_LIMIT);
    assert_eq!((book.len(), book::check(&book)), (BOOK_LIMIT, Ok(0)));
    let (word, _) = book::word_at(&book, BOOK_LIMIT - record.len()).unwrap().unwrap();
    assert_eq!(word, [0x1015]);
    book.push(0);
    assert_eq!(refused(book::check(&book)), (11, BOOK_LIMIT));
}

#[test]
fn a_refusal_tells_the_limits() {
    let too_long = read(&[0x1000; WORD_LIMIT + 1]).unwrap_err();
    assert_eq!(
        too_long.to_string(),
        "refusal 1: a word has at most 64 values, a line at most 192 bytes"
    );
    let no_row = write(&[0; RECORD_SIZE * (WORD_LIMIT + 1)]).unwrap_err();
    assert_eq!(no_row.to_string(), "refusal 6: no word of at most 64 values has these records");
}
