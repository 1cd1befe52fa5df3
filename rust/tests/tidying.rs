//! Tidying a book, by itself and for an add; the bytes are worked out from the document.

use jogcairn::{book, Added, Book, Found, Reason, Refusal, BOOK_LIMIT};

/// 1015, 1000 102C, 1000 102B, 1015 and 1000, of which the second and the fourth are removed.
const GAPS: &[u8; 45] = b"MW\x01\x07\0\0\0\x15\
    M-\x02\x02\0\0\0\x00\x2C\
    MW\x02\xFF\xFF\xFF\xFF\x00\x2B\
    M-\x01\x09\0\0\0\x15\
    MW\x01\x0A\x0B\x0C\x0D\x00\
    \0\0\0";

/// The same, tidied.
const CLOSED: &[u8; 45] = b"MW\x01\x07\0\0\0\x15\
    MW\x02\xFF\xFF\xFF\xFF\x00\x2B\
    MW\x01\x0A\x0B\x0C\x0D\x00\
    \0\0\0\0\0\0\0\0\0\0\0\0\0\0\0\0\0\0\0\0";

/// A removed record with 1000, and a live one with 1015.
const HALF: &[u8; 16] = b"M-\x01\x01\0\0\0\x00MW\x01\x02\0\0\0\x15";

fn no_book(place: usize) -> Result<usize, Refusal> {
    Err(Refusal { reason: Reason::NotABook, place })
}

fn refused(reason: Reason, place: usize) -> Result<Added, Refusal> {
    Err(Refusal { reason, place })
}

/// The removed and the live record of `HALF` in a buffer of so many bytes.
fn half_of(length: usize) -> Vec<u8> {
    let mut bytes = HALF.to_vec();
    bytes.resize(length, 0);
    bytes
}

#[test]
fn live_records_move_to_the_front_in_the_order_of_their_starts() {
    let mut bytes = *GAPS;
    assert_eq!(book::order(&bytes).unwrap(), [34, 17, 0]);
    for _ in 0..2 {
        assert_eq!(Book::new(&mut bytes).tidy(), Ok(25));
        assert_eq!(bytes, *CLOSED);
    }
    assert_eq!(book::order(&bytes).unwrap(), [17, 8, 0]);
}

#[test]
fn words_keep_their_stock_numbers_and_ranks() {
    let words: [&[u16]; 3] = [&[0x1000], &[0x1000, 0x102B], &[0x1015]];
    let stocks = [0x0D0C_0B0A, u32::MAX, 7];
    let mut bytes = *GAPS;
    let mut book = Book::new(&mut bytes);
    for starts in [[34, 17, 0], [17, 8, 0]] {
        for rank in 0..3 {
            let found = Ok(Found { start: starts[rank], stock: stocks[rank] });
            assert_eq!(book.find(words[rank]), found);
            assert_eq!(book.rank(rank), found);
        }
        book.tidy().unwrap();
    }
}

#[test]
fn none_or_all_may_be_removed() {
    assert_eq!(Book::new(&mut []).tidy(), Ok(0));
    let mut live = *CLOSED;
    assert_eq!(Book::new(&mut live[..25]).tidy(), Ok(25));
    assert_eq!(live, *CLOSED);
    let mut removed = *b"M-\x01\x01\0\0\0\x00M-\x02\x02\0\0\0\x15\x2B";
    assert_eq!(Book::new(&mut removed).tidy(), Ok(0));
    assert_eq!(removed, [0; 17]);
}

#[test]
fn what_is_no_book_is_not_tidied() {
    let mut stray = half_of(20);
    stray[18] = 1;
    let twice = [&HALF[..], &HALF[8..]].concat();
    for (bytes, place) in [(stray, 18), (twice, 16), (vec![0; BOOK_LIMIT + 1], BOOK_LIMIT)] {
        let mut tidied = bytes.clone();
        assert_eq!(Book::new(&mut tidied).tidy(), no_book(place));
        assert_eq!(tidied, bytes);
    }
}

#[test]
fn add_tidies_where_the_record_fits_in_no_other_way() {
    // Records of eight bytes, behind the eight of the live one.
    for length in 16..=25 {
        let mut bytes = half_of(length);
        let fits = length >= 24;
        let start = if fits { 16 } else { 8 };
        let added = Book::new(&mut bytes).add(&[0x1021], 3);
        assert_eq!(added, Ok(Added { start, tidied: !fits }));
        let mut expected = vec![0; length];
        let front = if fits { &HALF[..] } else { &HALF[8..] };
        expected[..start].copy_from_slice(front);
        expected[start..start + 8].copy_from_slice(b"MW\x01\x03\0\0\0\x21");
        assert_eq!(bytes, expected);
    }
}

#[test]
fn a_book_is_full_where_the_live_records_and_the_new_one_pass_its_end() {
    let mut bytes = half_of(16);
    let mut book = Book::new(&mut bytes);
    assert_eq!(book.add(&[0x1015, 0x102B], 3), refused(Reason::BookFull, 8));
    // A word that is live already is refused before anything is tidied for it.
    assert_eq!(book.add(&[0x1015], 3), refused(Reason::AlreadyLive, 8));
    assert_eq!(bytes, HALF);
    let mut live = *b"MW\x01\x02\0\0\0\x15\0\0\0\0\0\0\0";
    let mut book = Book::new(&mut live);
    assert_eq!(book.add(&[0x1000], 3), refused(Reason::BookFull, 8));
    assert_eq!(book.add(&[0x1015], 3), refused(Reason::AlreadyLive, 0));
    assert_eq!(live, *b"MW\x01\x02\0\0\0\x15\0\0\0\0\0\0\0");
}

#[test]
fn a_part_is_renamed_without_end() {
    let mut bytes = [0; 32];
    let mut book = Book::new(&mut bytes);
    book.add(&[0x1015], 7).unwrap();
    book.add(&[0x1000], 8).unwrap();
    // Behind the first record there is room for three, so each third name finds it used up.
    let answers = [(16, false), (24, false), (8, true)];
    for (turn, (start, tidied)) in (0u16..99).zip(answers.into_iter().cycle()) {
        let [old, new] = [turn, turn + 1].map(|turn| [0x1000 + turn % 20]);
        book.remove(&old).unwrap();
        assert_eq!(book.add(&new, 8), Ok(Added { start, tidied }));
    }
    assert_eq!(book.check(), Ok(2));
}
