//! The limits and sizes as the documents give them, each number once more: every other test
//! names them.

use oracle::limits::*;

#[test]
fn limits_are_those_of_the_documents() {
    assert_eq!(WORD_LIMIT, 64);
    assert_eq!(LINE_LIMIT, 192);
    assert_eq!(SPELLED_LIMIT, 190);
    assert_eq!(LABEL_LIMIT, 10);
    assert_eq!(SKELETON_LIMIT, 73);
    assert_eq!(RECORD_SIZE, 8);
    assert_eq!(KEY_SIZE, 384);
    assert_eq!(BOOK_LIMIT, 16_384);
    assert_eq!((BOOK_RECORD_HEAD, BOOK_RECORDS_LIMIT), (7, 2_048));
}
