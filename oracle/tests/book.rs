//! The word book: sentences of the documents 01 and 02, with bytes and places worked out
//! by hand.

mod records;

use oracle::book::{
    add, check, find, find_prefix, order, rank, remove, tidy, word_at, Added, Entry, Told,
};
use oracle::limits::{BOOK_LIMIT, BOOK_RECORDS_LIMIT, BOOK_RECORD_HEAD, WORD_LIMIT};
use oracle::Refusal;
use records::{KA, KAA, KHA, REMOVED_KA, REMOVED_KAA, REMOVED_KHA};

fn refusal<T>(number: u8, place: usize) -> Result<T, Refusal> {
    Err(Refusal { number, place })
}

fn entry(start: usize, stock: u32) -> Result<Entry, Refusal> {
    Ok(Entry { start, stock })
}

/// The answer of an add that did not tidy.
fn added(start: usize) -> Result<Added, Refusal> {
    Ok(Added { start, tidied: false })
}

/// The answer of an add that tidied.
fn added_tidied(start: usize) -> Result<Added, Refusal> {
    Ok(Added { start, tidied: true })
}

/// "a buffer of no bytes is a book without records"
#[test]
fn no_bytes_are_a_book() {
    assert_eq!(check(&[]), Ok(0));
    assert_eq!(find(&[], &[0x1000]), refusal(13, 0));
    assert_eq!(rank(&[], 0), refusal(15, 0));
    assert_eq!(add(&mut [], &[0x1000], 1), refusal(14, 0));
    assert_eq!(remove(&mut [], &[0x1000]), refusal(13, 0));
}

/// "Then come the count n of code values (one byte, …), the stock number (four bytes, low
/// byte first) and n bytes, each a value minus 1000."
#[test]
fn a_record_is_written_byte_for_byte() {
    let mut book = [0; 20];
    assert_eq!(add(&mut book, &[0x1000, 0x102C], 0x0403_0201), added(0));
    assert_eq!(book[..9], [0x4D, 0x57, 2, 1, 2, 3, 4, 0x00, 0x2C]);
    assert_eq!(book[9..], [0; 11]);
    assert_eq!(find(&book, &[0x1000, 0x102C]), entry(0, 0x0403_0201));
    assert_eq!(add(&mut book, &[0x104F], u32::MAX), added(9));
    assert_eq!(book[9..17], [0x4D, 0x57, 1, 0xFF, 0xFF, 0xFF, 0xFF, 0x4F]);
    assert_eq!(check(&book), Ok(2));
}

/// "Add puts a record with the normalised word": n is counted in the stored form.
#[test]
fn words_are_normalised_first() {
    let mut book = [0; 11];
    assert_eq!(add(&mut book, &[0x1000, 0x1014, 0x1037, 0x103A], 0), added(0));
    assert_eq!(book, [0x4D, 0x57, 4, 0, 0, 0, 0, 0x00, 0x14, 0x3A, 0x37]);
    assert_eq!(find(&book, &[0x1000, 0x1014, 0x103A, 0x1037]), entry(0, 0));
    let mut book = [0; 8];
    assert_eq!(add(&mut book, &[0x1025, 0x102E], 9), added(0));
    assert_eq!(book, [0x4D, 0x57, 1, 9, 0, 0, 0, 0x26]);
    assert_eq!(add(&mut book, &[0x1026], 9), refusal(12, 0));
    let mut book = [0; 9];
    assert_eq!(add(&mut book, &[0x1025, 0x1038, 0x102E], 9), added(0));
    assert_eq!(book, [0x4D, 0x57, 2, 9, 0, 0, 0, 0x26, 0x38]);
}

/// Document 02: independent letters with a final or a tone are words of a book.
#[test]
fn independent_letters_with_finals_are_added_and_found() {
    let mut book = [0; 11 + 11];
    assert_eq!(add(&mut book, &[0x104E, 0x1004, 0x103A, 0x1038], 1), added(0));
    assert_eq!(book[..11], [0x4D, 0x57, 4, 1, 0, 0, 0, 0x4E, 0x04, 0x3A, 0x38]);
    assert_eq!(add(&mut book, &[0x1025, 0x1000, 0x1039, 0x1000], 2), added(11));
    assert_eq!(book[11..], [0x4D, 0x57, 4, 2, 0, 0, 0, 0x25, 0x00, 0x39, 0x00]);
    assert_eq!(find(&book, &[0x104E, 0x1004, 0x1038, 0x103A]), entry(0, 1));
    // (46,0,1,0,4,0) (13,0,0,0,0,0) stands before (49,0,5,0,0,2).
    assert_eq!(rank(&book, 0), entry(11, 2));
    assert_eq!(rank(&book, 1), entry(0, 1));
    assert_eq!(remove(&mut book, &[0x1025, 0x1000, 0x1039, 0x1000]), Ok(11));
    assert_eq!(check(&book), Ok(1));
}

/// Document 02: so are words of which a syllable has two finals.
#[test]
fn words_with_two_finals_are_added_and_found() {
    let mut book = [0; 40];
    assert_eq!(add(&mut book, &[0x1018, 0x1010, 0x103A], 1), added(0));
    assert_eq!(add(&mut book, &[0x1018, 0x1010, 0x103A, 0x1005, 0x1037, 0x103A], 2), added(10));
    let bytes = [0x4D, 0x57, 6, 2, 0, 0, 0, 0x18, 0x10, 0x3A, 0x05, 0x3A, 0x37];
    assert_eq!(book[10..23], bytes);
    assert_eq!(add(&mut book, &[0x1018, 0x102C, 0x1010, 0x103A], 3), added(23));
    assert_eq!(find(&book, &[0x1018, 0x1010, 0x103A, 0x1005, 0x103A, 0x1037]), entry(10, 2));
    assert_eq!(find(&book, &[0x1018, 0x1010, 0x103A, 0x1005, 0x103A]), refusal(13, 0));
    // The second final is weighed before the vowel.
    assert_eq!(rank(&book, 0), entry(0, 1));
    assert_eq!(rank(&book, 1), entry(23, 3));
    assert_eq!(rank(&book, 2), entry(10, 2));
    let third = [0x1018, 0x1010, 0x103A, 0x1005, 0x103A, 0x1019, 0x103A];
    assert_eq!(add(&mut book, &third, 4), refusal(3, 6));
    // A tone for the second final letter, and 1039 for its killer.
    for (place, byte) in [(20, 0x37), (21, 0x39)] {
        let mut wrong = book;
        wrong[place] = byte;
        assert_eq!(check(&wrong), refusal(11, 10));
    }
}

/// "when the live records and the new one together pass the buffer's end": an exact fit
/// does not.
#[test]
fn a_book_fills_to_its_last_byte() {
    let mut book = [0; 16];
    assert_eq!(add(&mut book, &[0x1000], 1), added(0));
    assert_eq!(add(&mut book, &[0x1001, 0x102C], 2), refusal(14, 8));
    assert_eq!(add(&mut book, &[0x1001], 2), added(8));
    assert_eq!(add(&mut book, &[0x1002], 3), refusal(14, 16));
    // 12 comes before 14.
    assert_eq!(add(&mut book, &[0x1000], 3), refusal(12, 0));
    assert_eq!(add(&mut book, &[0x1001], 3), refusal(12, 8));
    assert_eq!(book, [KA, KHA].as_flattened());
    assert_eq!(add(&mut [0; 7], &[0x1000], 1), refusal(14, 0));
}

/// "Remove changes the record's 57 to 2D, no other byte, and gives its start."
#[test]
fn a_removed_word_is_added_anew_at_the_end() {
    let mut book = [KA, KHA, [0; 8], [0; 8]].as_flattened().to_vec();
    assert_eq!(remove(&mut book, &[0x1001]), Ok(8));
    assert_eq!(book, [KA, REMOVED_KHA, [0; 8], [0; 8]].as_flattened());
    assert_eq!(remove(&mut book, &[0x1001]), refusal(13, 0));
    assert_eq!(find(&book, &[0x1001]), refusal(13, 0));
    assert_eq!(check(&book), Ok(1));
    assert_eq!(add(&mut book, &[0x1001], 2), added(16));
    assert_eq!(book, [KA, REMOVED_KHA, KHA, [0; 8]].as_flattened());
    assert_eq!(remove(&mut book, &[0x1001]), Ok(16));
    assert_eq!(add(&mut book, &[0x1001], 2), added(24));
    assert_eq!(remove(&mut book, &[0x1001]), Ok(24));
    assert_eq!(book, [KA, REMOVED_KHA, REMOVED_KHA, REMOVED_KHA].as_flattened());
    // "Through tidying alone is the room of removed records used again."
    assert_eq!(add(&mut book, &[0x1001], 2), added_tidied(8));
    assert_eq!(book, [KA, KHA, [0; 8], [0; 8]].as_flattened());
}

/// "Tests run in the order 1, 7, 8, 2, 3 or 4": the word before the book.
#[test]
fn a_refused_word_comes_before_a_wrong_book() {
    let long = [0x1000; WORD_LIMIT + 1];
    let cases: [(&[u16], u8, usize); 10] = [
        (&long, 1, WORD_LIMIT),
        (&[], 8, 0),
        (&[0x1000, 0x1022], 2, 1),
        (&[0x103A, 0x0041], 2, 1),
        (&[0x1000, 0x1039], 3, 1),
        (&[0x1000, 0x102C, 0x103A], 3, 2),
        (&[0x1000, 0x1000, 0x1039], 4, 3),
        // Sorted it is 1000 103B 103C, of which the first two values can go on.
        (&[0x1000, 0x103C, 0x103B], 3, 2),
        (&[0x1023, 0x1000, 0x1039], 4, 3),
        (&[0x104C, 0x1000, 0x103A], 3, 2),
    ];
    for (word, number, place) in cases {
        for mut book in [vec![], vec![0; 20], vec![1; 20], vec![0; BOOK_LIMIT + 1]] {
            let before = book.clone();
            assert_eq!(find(&book, word), refusal(number, place));
            assert_eq!(add(&mut book, word, 1), refusal(number, place));
            assert_eq!(remove(&mut book, word), refusal(number, place));
            assert_eq!(book, before);
        }
    }
}

/// "for an overlong buffer" the limit is the place, and "an overlong buffer is tested first".
#[test]
fn an_overlong_buffer_is_no_book() {
    assert_eq!(check(&[0; BOOK_LIMIT]), Ok(0));
    for first in [0x00, 0x01, 0x4D] {
        let mut book = vec![0; BOOK_LIMIT + 1];
        book[0] = first;
        assert_eq!(check(&book), refusal(11, BOOK_LIMIT));
        assert_eq!(rank(&book, 0), refusal(11, BOOK_LIMIT));
        assert_eq!(add(&mut book, &[0x1000], 1), refusal(11, BOOK_LIMIT));
    }
}

/// "start of the first wrong record or first stray byte"
#[test]
fn wrong_records_are_placed_at_their_start() {
    let wrong: [&[u8]; 16] = [
        &[0x4D],
        &[0x4D, 0x57],
        &[0x4D, 0x57, 1, 0, 0, 0, 0],
        &[0x4D, 0x57, 2, 0, 0, 0, 0, 0x00],
        &[0x4D, 0x58, 1, 0, 0, 0, 0, 0x00],
        &[0x4D, 0x00, 1, 0, 0, 0, 0, 0x00],
        &[0x4E, 0x57, 1, 0, 0, 0, 0, 0x00],
        &[0x4D, 0x57, 0, 0, 0, 0, 0, 0x00],
        // Not readable, a removed one too; not in storage order; open at its end.
        &[0x4D, 0x57, 1, 0, 0, 0, 0, 0x22],
        &[0x4D, 0x2D, 1, 0, 0, 0, 0, 0x3F],
        &[0x4D, 0x57, 4, 0, 0, 0, 0, 0x00, 0x14, 0x37, 0x3A],
        &[0x4D, 0x57, 2, 0, 0, 0, 0, 0x25, 0x2E],
        &[0x4D, 0x57, 3, 0, 0, 0, 0, 0x00, 0x00, 0x39],
        &[0x4D, 0x57, 3, 0, 0, 0, 0, 0x25, 0x00, 0x39],
        &[0x4D, 0x57, 2, 0, 0, 0, 0, 0x25, 0x2D],
        &[0x4D, 0x2D, 2, 0, 0, 0, 0, 0x4C, 0x38],
    ];
    for record in wrong {
        assert_eq!(check(record), refusal(11, 0), "{record:02X?}");
        let behind = [&KHA, record].concat();
        assert_eq!(check(&behind), refusal(11, 8), "{record:02X?}");
        assert_eq!(find(&behind, &[0x1001]), refusal(11, 8));
        assert_eq!(rank(&behind, 0), refusal(11, 8));
    }
    let full = |count: usize, values: usize| {
        [&[0x4D, 0x57, count as u8, 0, 0, 0, 0][..], &vec![0x00; values]].concat()
    };
    assert_eq!(check(&full(WORD_LIMIT, WORD_LIMIT)), Ok(1));
    assert_eq!(check(&full(WORD_LIMIT, WORD_LIMIT - 1)), refusal(11, 0));
    assert_eq!(check(&full(WORD_LIMIT + 1, WORD_LIMIT + 1)), refusal(11, 0));
    assert_eq!(check(&full(255, 255)), refusal(11, 0));
}

/// "The records end at the first zero byte that stands where a record would begin",
/// "then only zero bytes".
#[test]
fn stray_bytes_are_placed_where_they_stand() {
    let with_tail = |tail: &[u8]| check(&[&KA, tail].concat());
    assert_eq!(with_tail(&[0, 0, 0]), Ok(1));
    assert_eq!(with_tail(&[0, 0, 1]), refusal(11, 10));
    assert_eq!(with_tail(&[0, 5, 1]), refusal(11, 9));
    assert_eq!(with_tail(&[7, 0, 0]), refusal(11, 8));
    assert_eq!(with_tail(&[&[0][..], &KHA].concat()), refusal(11, 9));
    assert_eq!(check(&[0, 0, 0, 0x57]), refusal(11, 3));
}

/// "no two live records have the same word"; "of two equal words, the later".
#[test]
fn live_words_differ() {
    let of = |records: &[[u8; 8]]| check(records.as_flattened());
    assert_eq!(of(&[KA, REMOVED_KA]), Ok(1));
    assert_eq!(of(&[REMOVED_KA, KA]), Ok(1));
    assert_eq!(of(&[REMOVED_KA, REMOVED_KA]), Ok(0));
    assert_eq!(of(&[KA, KA]), refusal(11, 8));
    assert_eq!(of(&[KA, KHA, KA]), refusal(11, 16));
    assert_eq!(of(&[KA, KHA, KA, KA]), refusal(11, 16));
    assert_eq!(of(&[KA, KHA, KHA, KA]), refusal(11, 16));
    assert_eq!(of(&[KA, REMOVED_KA, KA]), refusal(11, 16));
    // A wrong record behind the equal word, and before it.
    assert_eq!(of(&[KA, KA, [1; 8]]), refusal(11, 8));
    assert_eq!(of(&[KA, [1; 8], KA]), refusal(11, 8));
}

/// "Rank r gives start and stock number of the live record with exactly r live
/// records before it in word order."
#[test]
fn ranks_go_by_word_order() {
    let mut book = [0; 64];
    // In word order: 1000 (13), 1000 102C (13, vowel 1), 1000 1000 103A (13, final 1),
    // 1021 102D and 1023 (both 46 with vowel 2, so by code values).
    assert_eq!(add(&mut book, &[0x1023], 10), added(0));
    assert_eq!(add(&mut book, &[0x1000, 0x1000, 0x103A], 11), added(8));
    assert_eq!(add(&mut book, &[0x1021, 0x102D], 12), added(18));
    assert_eq!(add(&mut book, &[0x1000], 13), added(27));
    assert_eq!(add(&mut book, &[0x1000, 0x102C], 14), added(35));
    let ranked = [(27, 13), (35, 14), (8, 11), (18, 12), (0, 10)];
    for (number, (start, stock)) in ranked.into_iter().enumerate() {
        assert_eq!(rank(&book, number), entry(start, stock));
    }
    assert_eq!(rank(&book, 5), refusal(15, 5));
    assert_eq!(rank(&book, usize::MAX), refusal(15, 5));
    assert_eq!(remove(&mut book, &[0x1000, 0x102C]), Ok(35));
    assert_eq!(rank(&book, 1), entry(8, 11));
    assert_eq!(rank(&book, 4), refusal(15, 4));
}

/// The starts of all live records in word order, each once.
#[test]
fn the_order_of_a_book_has_every_live_start() {
    let book = [KHA, REMOVED_KA, KA, [0; 8]].as_flattened().to_vec();
    let mut starts = [7; 3];
    assert_eq!(order(&book, &mut starts), Ok(2));
    assert_eq!(starts, [16, 0, 7]);
    assert_eq!(order(&book, &mut starts[..1]), refusal(5, 2));
    assert_eq!(order(&[], &mut []), Ok(0));
    assert_eq!(order([KA, KA].as_flattened(), &mut []), refusal(11, 8));
    assert_eq!(starts, [16, 0, 7]);
}

/// The word of a record, live or removed, by the place where it starts.
#[test]
fn a_record_is_told_by_its_start() {
    let book = [REMOVED_KA, KHA, [0; 8]].as_flattened().to_vec();
    let mut word = [7; 2];
    let removed = Told { stock: 1, count: 1, live: false };
    assert_eq!(word_at(&book, 0, &mut word), Ok(Some(removed)));
    assert_eq!(word, [0x1000, 7]);
    let live = Told { stock: 2, count: 1, live: true };
    assert_eq!(word_at(&book, 8, &mut word), Ok(Some(live)));
    assert_eq!(word, [0x1001, 7]);
    for start in [1, 7, 9, 15, 16, 24, usize::MAX] {
        assert_eq!(word_at(&book, start, &mut word), Ok(None));
    }
    assert_eq!(word_at(&book, 8, &mut []), refusal(5, 1));
    assert_eq!(word_at(&book, 1, &mut []), Ok(None));
    assert_eq!(word_at(b"M", 0, &mut []), refusal(11, 0));
}

/// Removed records before, between and behind live ones, whose order is not that of their
/// words. The live ones start at 9, 34 and 51.
fn untidy() -> Vec<u8> {
    let front = [&REMOVED_KAA[..], &KHA, &REMOVED_KA, &REMOVED_KAA].concat();
    [&front[..], &KAA, &REMOVED_KHA, &KA, &REMOVED_KHA, &[0; 5]].concat()
}

/// The same book, tidied: the live records start at 0, 8 and 17 and end at 25.
fn tidied() -> Vec<u8> {
    [&KHA[..], &KAA, &KA, &[0; 47]].concat()
}

/// "Tidying moves the live records to the front, in the order of their starts, closes the
/// gaps, and fills the rest with zero."
#[test]
fn live_records_move_to_the_front() {
    let mut book = untidy();
    assert_eq!(tidy(&mut book), Ok(25));
    assert_eq!(book, tidied());
    // "Tidying twice is the same as tidying once."
    assert_eq!(tidy(&mut book), Ok(25));
    assert_eq!(book, tidied());
    // A record that moves by less than its length, and its last bytes with it.
    let mut book = [&REMOVED_KA[..], &KAA].concat();
    assert_eq!(tidy(&mut book), Ok(9));
    assert_eq!(book, [&KAA[..], &[0; 8]].concat());
    // A record that stays, with one behind it that goes.
    let mut book = [&KAA[..], &REMOVED_KA].concat();
    assert_eq!(tidy(&mut book), Ok(9));
    assert_eq!(book, [&KAA[..], &[0; 8]].concat());
}

/// Without removed records no byte is changed, whether or not the book is full.
#[test]
fn a_book_without_removed_records_is_tidy() {
    let books: [(&[&[u8]], usize); 6] = [
        (&[], 0),
        (&[&[0; 20]], 0),
        (&[&KA], 8),
        (&[&KA, &[0; 1]], 8),
        (&[&KHA, &KAA, &KA], 25),
        (&[&KHA, &KAA, &KA, &[0; 9]], 25),
    ];
    for (parts, live_length) in books {
        let mut book = parts.concat();
        assert_eq!(tidy(&mut book), Ok(live_length));
        assert_eq!(book, parts.concat());
    }
}

#[test]
fn a_book_of_removed_records_becomes_zeros() {
    for behind in [0, 5] {
        let mut book = [&REMOVED_KAA[..], &REMOVED_KA, &REMOVED_KA, &vec![0; behind]].concat();
        assert_eq!(tidy(&mut book), Ok(0));
        assert_eq!(book, vec![0; 25 + behind]);
    }
}

/// "Each live word has the same stock number afterwards, and every rank shows the same
/// word."
#[test]
fn words_keep_their_stock_numbers_and_their_ranks() {
    let words: [&[u16]; 3] = [&[0x1000], &[0x1000, 0x102C], &[0x1001]];
    let stocks = [1, 0x0403_0201, 2];
    let mut tidy_book = untidy();
    assert_eq!(tidy(&mut tidy_book), Ok(25));
    for (book, starts) in [(untidy(), [51, 34, 9]), (tidy_book, [17, 8, 0])] {
        assert_eq!(check(&book), Ok(3));
        let mut list = [7; 4];
        assert_eq!(order(&book, &mut list), Ok(3));
        assert_eq!(list, [starts[0] as u16, starts[1] as u16, starts[2] as u16, 7]);
        for number in 0..3 {
            let (word, start, stock) = (words[number], starts[number], stocks[number]);
            assert_eq!(rank(&book, number), entry(start, stock));
            assert_eq!(find(&book, word), entry(start, stock));
            let mut output = [7; 3];
            let told = Told { stock, count: word.len(), live: true };
            assert_eq!(word_at(&book, start, &mut output), Ok(Some(told)));
            assert_eq!(output[..word.len()], *word);
            // Each word is one syllable, which no other begins with.
            let mut fitting = [7; 2];
            assert_eq!(find_prefix(&book, word, &mut fitting), Ok(1));
            assert_eq!(fitting, [start as u16, 7]);
        }
        assert_eq!(rank(&book, 3), refusal(15, 3));
    }
}

/// "tidying itself is refused with 11 alone": the place is that of every call, and no
/// record before it moves.
#[test]
fn what_is_no_book_is_not_tidied() {
    let wrong: [(&[&[u8]], usize); 8] = [
        (&[&[1]], 0),
        (&[&REMOVED_KA, &KHA, &[0x4D]], 16),
        (&[&REMOVED_KA, &KHA, &[0, 0, 1]], 18),
        (&[&REMOVED_KA, &KHA, &KA, &KHA], 24),
        (&[&REMOVED_KA, &KHA, &REMOVED_KAA[..8]], 16),
        (&[&REMOVED_KA, &KHA, &[0x4D, 0x2D, 1, 0, 0, 0, 0, 0x22]], 16),
        (&[&REMOVED_KA, &[0; BOOK_LIMIT + 1 - REMOVED_KA.len()]], BOOK_LIMIT),
        (&[&[0; BOOK_LIMIT + 1]], BOOK_LIMIT),
    ];
    for (parts, place) in wrong {
        let mut book = parts.concat();
        assert_eq!(tidy(&mut book), refusal(11, place));
        assert_eq!(add(&mut book, &[0x1002], 1), refusal(11, place));
        assert_eq!(book, parts.concat());
    }
}

/// "Add tidies by itself when its record doesn't fit otherwise but fits after tidying, and
/// in no other case."
#[test]
fn add_tidies_where_its_record_fits_in_no_other_way() {
    let before = [&REMOVED_KA[..], &KHA, &[0; 8]].concat();
    // It fits behind the last record, to the last byte.
    let mut book = before.clone();
    assert_eq!(add(&mut book, &[0x1000], 1), added(16));
    assert_eq!(book, [REMOVED_KA, KHA, KA].as_flattened());
    // It has one byte more.
    let mut book = before.clone();
    assert_eq!(add(&mut book, &[0x1000, 0x102C], 0x0403_0201), added_tidied(8));
    assert_eq!(book, [&KHA[..], &KAA, &[0; 7]].concat());
    // After tidying it fits to the last byte.
    let mut book = [&REMOVED_KAA[..], &KHA].concat();
    assert_eq!(add(&mut book, &[0x1000, 0x102C], 0x0403_0201), added_tidied(8));
    assert_eq!(book, [&KHA[..], &KAA].concat());
    // No live record is left: the new one starts at 0, and what was behind it is zero.
    let mut book = [&REMOVED_KAA[..], &REMOVED_KA].concat();
    assert_eq!(add(&mut book, &[0x1000], 1), added_tidied(0));
    assert_eq!(book, [&KA[..], &[0; 9]].concat());
    // The last byte is free, and no record before the removed one moves.
    let mut book = [&KHA[..], &REMOVED_KA, &[0]].concat();
    assert_eq!(add(&mut book, &[0x1000, 0x102C], 0x0403_0201), added_tidied(8));
    assert_eq!(book, [&KHA[..], &KAA].concat());
    // The word is counted as it is stored: 1025 102E is one value.
    let mut book = REMOVED_KA;
    assert_eq!(add(&mut book, &[0x1025, 0x102E], 9), added_tidied(0));
    assert_eq!(book, [0x4D, 0x57, 1, 9, 0, 0, 0, 0x26]);
}

/// "14 is now given when the live records and the new one together pass the buffer's end
/// and at no other time, its place is the live length, and nothing is moved".
#[test]
fn a_book_is_full_where_no_tidying_helps() {
    let three = &[0x1002, 0x103B, 0x102C][..];
    let full: [(&[&[u8]], &[u16], usize); 7] = [
        (&[&REMOVED_KA, &KHA], &[0x1000, 0x102C], 8),
        (&[&REMOVED_KA, &KHA, &[0]], three, 8),
        (&[&KHA, &REMOVED_KAA], three, 8),
        (&[&REMOVED_KA, &KHA, &REMOVED_KA, &KAA], &[0x1002; 10], 17),
        (&[&REMOVED_KA], &[0x1000, 0x102C], 0),
        // Nothing is removed.
        (&[&KHA, &[0; 7]], &[0x1000], 8),
        (&[&KHA, &KAA], &[0x1000], 17),
    ];
    for (parts, word, live_length) in full {
        let mut book = parts.concat();
        assert_eq!(add(&mut book, word, 1), refusal(14, live_length));
        assert_eq!(book, parts.concat());
    }
}

/// Tests run in the order "11, 12, 13, 14": a live word has the start that it has, in a book
/// that is full too, or that would be tidied for another word.
#[test]
fn a_live_word_comes_before_a_full_book() {
    let live: [(&[&[u8]], usize); 4] = [
        (&[&REMOVED_KHA, &KA], 8),
        (&[&REMOVED_KAA, &REMOVED_KA, &KA], 17),
        (&[&KHA, &KA], 8),
        (&[&REMOVED_KHA, &KA, &[0; 8]], 8),
    ];
    for (parts, start) in live {
        let mut book = parts.concat();
        assert_eq!(add(&mut book, &[0x1000], 7), refusal(12, start));
        assert_eq!(book, parts.concat());
    }
}

/// A refused word comes before tidying, and moves nothing.
#[test]
fn no_refused_word_tidies() {
    let words: [(&[u16], u8, usize); 4] = [
        (&[0x1000; WORD_LIMIT + 1], 1, WORD_LIMIT),
        (&[], 8, 0),
        (&[0x1022], 2, 0),
        (&[0x1000, 0x1039], 3, 1),
    ];
    for (word, number, place) in words {
        let mut book = [REMOVED_KA, KHA].as_flattened().to_vec();
        assert_eq!(add(&mut book, word, 1), refusal(number, place));
        assert_eq!(book, [REMOVED_KA, KHA].as_flattened());
    }
}

/// The longest book, full of removed records but for its last eight bytes.
#[test]
fn the_longest_book_is_tidied() {
    const LAST: usize = BOOK_LIMIT - KHA.len();
    let before = [[REMOVED_KA; BOOK_RECORDS_LIMIT - 1].as_flattened(), &KHA].concat();
    let mut book = before.clone();
    assert_eq!(tidy(&mut book), Ok(8));
    assert_eq!(book[..8], KHA);
    assert_eq!(book[8..], [0; LAST]);
    let mut book = before.clone();
    assert_eq!(remove(&mut book, &[0x1001]), Ok(LAST));
    // Remove does not tidy.
    assert_eq!(book[..LAST], before[..LAST]);
    assert_eq!(book[LAST..], REMOVED_KHA);
    assert_eq!(add(&mut book, &[0x1000; WORD_LIMIT], 0x0403_0201), added_tidied(0));
    let (head, rest) = book.split_at(BOOK_RECORD_HEAD);
    assert_eq!(head, [0x4D, 0x57, WORD_LIMIT as u8, 1, 2, 3, 4]);
    assert_eq!(rest, [0; BOOK_LIMIT - BOOK_RECORD_HEAD]);
}
