//! The limits of the proved library, as the crate `jogcairn` gives them, and those of the other
//! implementation: the tests take them from either.

use oracle::limits;

#[test]
fn both_libraries_have_the_same_limits() {
    assert_eq!(jogcairn::WORD_LIMIT, limits::WORD_LIMIT);
    assert_eq!(jogcairn::LINE_LIMIT, limits::LINE_LIMIT);
    assert_eq!(jogcairn::SPELLED_LIMIT, limits::SPELLED_LIMIT);
    assert_eq!(jogcairn::LABEL_LIMIT, limits::LABEL_LIMIT);
    assert_eq!(jogcairn::SKELETON_LIMIT, limits::SKELETON_LIMIT);
    assert_eq!(jogcairn::RECORD_SIZE, limits::RECORD_SIZE);
    assert_eq!(jogcairn::WEIGHTS, limits::WEIGHTS);
    assert_eq!(jogcairn::KEY_SIZE, limits::KEY_SIZE);
    assert_eq!(jogcairn::BOOK_LIMIT, limits::BOOK_LIMIT);
    assert_eq!(jogcairn::BOOK_RECORD_HEAD, limits::BOOK_RECORD_HEAD);
    assert_eq!(jogcairn::BOOK_RECORDS_LIMIT, limits::BOOK_RECORDS_LIMIT);
}
