//! Document 02, "See an add before doing it", with starts and places worked out by hand.

mod records;

use oracle::book::{add, preview, Added, Preview};
use oracle::limits::{BOOK_LIMIT, BOOK_RECORDS_LIMIT, WORD_LIMIT};
use oracle::Refusal;
use records::{KA, KAA, KHA, REMOVED_KA, REMOVED_KAA, REMOVED_KHA};

/// "the byte where the record would start", and "whether the add would tidy".
fn accepted(start: usize, tidies: bool) -> Preview {
    Preview { answer: Ok(Added { start, tidied: tidies }), start, tidies }
}

/// "Where add refuses, the start is 0 and the preview says that it wouldn't tidy."
fn refused(number: u8, place: usize) -> Preview {
    Preview { answer: Err(Refusal { number, place }), start: 0, tidies: false }
}

/// Demands this preview of an add to a book of these parts. "The book is untouched", so that the
/// add then has the same answer.
fn demand(parts: &[&[u8]], word: &[u16], expected: Preview) {
    let mut book = parts.concat();
    assert_eq!(preview(&book, word, 5), expected);
    assert_eq!(book, parts.concat());
    assert_eq!(add(&mut book, word, 5), expected.answer);
}

/// A record goes behind the last one, where it fits to the last byte too.
#[test]
fn a_record_that_fits_starts_behind_the_last_one() {
    demand(&[&[0; 20]], &[0x1000], accepted(0, false));
    demand(&[&[0; 8]], &[0x1000], accepted(0, false));
    demand(&[&KHA, &[0; 9]], &[0x1000], accepted(8, false));
    demand(&[&KHA, &[0; 8]], &[0x1000], accepted(8, false));
    demand(&[&KHA, &KAA, &[0; 9]], &[0x1000, 0x102D], accepted(17, false));
    // Removed records stay where they are, as long as there is room behind them.
    demand(&[&REMOVED_KA, &KHA, &[0; 8]], &[0x1000], accepted(16, false));
    demand(&[&REMOVED_KA, &REMOVED_KAA, &[0; 8]], &[0x1000], accepted(17, false));
}

/// The start is the one that the record has after tidying.
#[test]
fn a_record_that_fits_after_tidying_starts_behind_the_live_ones() {
    // One byte is missing behind the last record, or all are.
    demand(&[&REMOVED_KA, &KHA, &[0; 8]], &[0x1000, 0x102C], accepted(8, true));
    demand(&[&REMOVED_KA, &KHA], &[0x1000], accepted(8, true));
    // After tidying it fits to the last byte.
    demand(&[&REMOVED_KAA, &KHA], &[0x1000, 0x102C], accepted(8, true));
    demand(&[&REMOVED_KHA, &KA, &REMOVED_KAA, &KAA], &[0x1002; 10], accepted(17, true));
    // No record moves, since the removed ones stand behind the live one.
    demand(&[&KHA, &REMOVED_KA, &[0]], &[0x1000, 0x102C], accepted(8, true));
    // No live record is left.
    demand(&[&REMOVED_KAA, &REMOVED_KA], &[0x1000], accepted(0, true));
}

/// "14 is now given when the live records and the new one together pass the buffer's end and
/// at no other time, its place is the live length".
#[test]
fn a_record_that_fits_in_no_way_has_no_start_and_does_not_tidy() {
    demand(&[], &[0x1000], refused(14, 0));
    demand(&[&[0; 7]], &[0x1000], refused(14, 0));
    demand(&[&KHA, &KAA], &[0x1000], refused(14, 17));
    demand(&[&KHA, &[0; 7]], &[0x1000], refused(14, 8));
    demand(&[&REMOVED_KA], &[0x1000, 0x102C], refused(14, 0));
    demand(&[&REMOVED_KA, &KHA], &[0x1000, 0x102C], refused(14, 8));
    demand(&[&KHA, &REMOVED_KAA, &[0]], &[0x1002, 0x103B, 0x102C, 0x1038], refused(14, 8));
    demand(&[&REMOVED_KHA, &KA, &REMOVED_KAA, &KAA], &[0x1002; 11], refused(14, 17));
}

/// The word is counted, and looked for, as it is stored: 1025 102E is 1026, one value.
#[test]
fn words_are_normalised_first() {
    demand(&[&[0; 8]], &[0x1025, 0x102E], accepted(0, false));
    demand(&[&REMOVED_KA], &[0x1025, 0x102E], accepted(0, true));
    let live = [0x4D, 0x57, 1, 9, 0, 0, 0, 0x26];
    demand(&[&live, &[0; 9]], &[0x1025, 0x102E], refused(12, 0));
}

/// "12, add: word is live already", with its start as the place, in a book that is full too,
/// or that would be tidied for another word.
#[test]
fn a_live_word_is_refused_at_its_start() {
    demand(&[&KHA, &KA, &[0; 8]], &[0x1000], refused(12, 8));
    demand(&[&KHA, &KA], &[0x1000], refused(12, 8));
    demand(&[&REMOVED_KHA, &KA], &[0x1000], refused(12, 8));
    demand(&[&REMOVED_KAA, &REMOVED_KA, &KA], &[0x1000], refused(12, 17));
}

/// "11, not a book", with the place that every call gives, before any test of the word's
/// record.
#[test]
fn what_is_no_book_is_refused() {
    for word in [&[0x1000][..], &[0x1001], &[0x1002; WORD_LIMIT]] {
        demand(&[&[1]], word, refused(11, 0));
        demand(&[&REMOVED_KA, &KHA, &[0x4D]], word, refused(11, 16));
        demand(&[&REMOVED_KA, &KHA, &[0, 0, 1]], word, refused(11, 18));
        demand(&[&REMOVED_KA, &KHA, &KA, &KHA], word, refused(11, 24));
        let overlong = [0; BOOK_LIMIT + 1 - REMOVED_KA.len()];
        demand(&[&REMOVED_KA, &overlong], word, refused(11, BOOK_LIMIT));
    }
}

/// "Tests run in the order 1, 7, 8, 2, 3 or 4": the word before the book.
#[test]
fn a_refused_word_comes_before_a_wrong_book() {
    let words: [(&[u16], u8, usize); 7] = [
        (&[0x1000; WORD_LIMIT + 1], 1, WORD_LIMIT),
        (&[], 8, 0),
        (&[0x1000, 0x1022], 2, 1),
        (&[0x103A, 0x0041], 2, 1),
        (&[0x1000, 0x102C, 0x103A], 3, 2),
        (&[0x1000, 0x1000, 0x1039], 4, 3),
        // Sorted it is 1000 103B 103C, of which the first two values can go on.
        (&[0x1000, 0x103C, 0x103B], 3, 2),
    ];
    for (word, number, place) in words {
        let books: [&[&[u8]]; 6] = [
            &[],
            &[&[0; 20]],
            &[&REMOVED_KA, &KHA],
            &[&[1; 20]],
            &[&KA, &KA],
            &[&[0; BOOK_LIMIT + 1]],
        ];
        for parts in books {
            demand(parts, word, refused(number, place));
        }
    }
}

/// Starts and places up to the end of the longest book.
#[test]
fn the_longest_book_is_previewed() {
    let removed = [REMOVED_KA; BOOK_RECORDS_LIMIT - 1];
    let removed = removed.as_flattened();
    let last = BOOK_LIMIT - KA.len();
    demand(&[removed, &[0; 8]], &[0x1000], accepted(last, false));
    demand(&[removed, &[0; 8]], &[0x1000; WORD_LIMIT], accepted(0, true));
    demand(&[removed, &KHA], &[0x1000; WORD_LIMIT], accepted(8, true));
    demand(&[removed, &KA], &[0x1000], refused(12, last));
}
