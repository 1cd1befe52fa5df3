//! Seeing an add before doing it. The answers are worked out from the document, and each is what an
//! add on a copy of the book comes to.

mod answers;

use answers::refused;
use jogcairn::{
    book, Added, Book, Preview, Reason, Refusal, BOOK_LIMIT, BOOK_RECORD_HEAD, WORD_LIMIT,
};

/// A record that a book is made of, with the stock number 0x0D0C0B0A.
#[derive(Clone, Copy)]
struct Record {
    word: &'static [u16],
    live: bool,
}

impl Record {
    fn bytes(self) -> Vec<u8> {
        let mark = if self.live { b'W' } else { b'-' };
        let head = [b'M', mark, self.word.len() as u8, 0x0A, 0x0B, 0x0C, 0x0D];
        let letters = self.word.iter().map(|value| (value - 0x1000) as u8);
        head.into_iter().chain(letters).collect()
    }
}

/// The words of the records that books are made of, of eight bytes, eight and nine.
const WORDS: [&[u16]; 3] = [&[0x1000], &[0x1015], &[0x1015, 0x102B]];

/// A removed record with 1000, and a live one with 1015.
const HALF: &[u8; 16] = b"M-\x01\x01\0\0\0\x00MW\x01\x02\0\0\0\x15";

/// The same behind a live record with 1015 102B.
const THREE: &[u8; 25] = b"MW\x02\x07\0\0\0\x15\x2BM-\x01\x01\0\0\0\x00MW\x01\x02\0\0\0\x15";

fn accepts(start: usize, tidied: bool) -> Preview {
    Preview { answer: Ok(Added { start, tidied }), start, tidies: tidied }
}

fn refuses(reason: Reason, place: usize) -> Preview {
    Preview { answer: Err(Refusal { reason, place }), start: 0, tidies: false }
}

/// The bytes, and zeros behind them.
fn with_zeros(bytes: &[u8], zeros: usize) -> Vec<u8> {
    let mut longer = bytes.to_vec();
    longer.resize(bytes.len() + zeros, 0);
    longer
}

/// The preview of an add, by a book and on shared bytes. It leaves the bytes as they were, and it
/// is what an add on a copy of them comes to.
fn previewed(bytes: &[u8], word: &[u16], stock: u32) -> Preview {
    let mut copy = bytes.to_vec();
    let preview = Book::new(&mut copy).preview(word, stock);
    assert_eq!(copy, bytes);
    assert_eq!(book::preview(&copy, word, stock), preview);
    assert_eq!(copy, bytes);
    match Book::new(&mut copy).add(word, stock) {
        Ok(added) => assert_eq!(preview, accepts(added.start, added.tidied)),
        Err(refusal) => assert_eq!(preview, refuses(refusal.reason, refusal.place)),
    }
    preview
}

/// The book with one record more behind it, in each way in which no word is live twice.
fn longer(book: &[Record]) -> Vec<Vec<Record>> {
    let live = |word| book.iter().any(|record| record.live && record.word == word);
    WORDS
        .into_iter()
        .flat_map(|word| [true, false].map(|live| Record { word, live }))
        .filter(|record| !(record.live && live(record.word)))
        .map(|record| [book, &[record]].concat())
        .collect()
}

/// Every row of at most three records in which no word is live twice.
fn small_books() -> Vec<Vec<Record>> {
    let mut books = vec![vec![]];
    let mut shorter = books.clone();
    for _ in 0..3 {
        shorter = shorter.iter().flat_map(|book| longer(book)).collect();
        books.extend_from_slice(&shorter);
    }
    books
}

/// What the document says of an add to a book of these records with so many zeros behind them.
fn document_says(records: &[Record], zeros: usize, word: &[u16]) -> Preview {
    let (mut used, mut live_length, mut found) = (0, 0, None);
    for record in records {
        let size = record.bytes().len();
        if record.live {
            live_length += size;
            if record.word == word {
                found = Some(used);
            }
        }
        used += size;
    }
    let size = BOOK_RECORD_HEAD + word.len();
    match found {
        Some(start) => refuses(Reason::AlreadyLive, start),
        None if size <= zeros => accepts(used, false),
        None if live_length + size <= used + zeros => accepts(live_length, true),
        None => refuses(Reason::BookFull, live_length),
    }
}

#[test]
fn small_books_are_previewed_as_the_document_says_and_as_add_answers() {
    let [mut fit, mut tidied, mut full, mut live] = [0; 4];
    for records in small_books() {
        let front: Vec<u8> = records.iter().flat_map(|record| record.bytes()).collect();
        for zeros in 0..=9 {
            let bytes = with_zeros(&front, zeros);
            for word in WORDS.into_iter().chain([&[0x1021][..]]) {
                let preview = previewed(&bytes, word, 5);
                assert_eq!(preview, document_says(&records, zeros, word), "{bytes:02X?}");
                match preview.answer {
                    Ok(added) if added.tidied => tidied += 1,
                    Ok(_) => fit += 1,
                    Err(Refusal { reason: Reason::BookFull, .. }) => full += 1,
                    Err(_) => live += 1,
                }
            }
        }
    }
    assert!(fit > 0 && tidied > 0 && full > 0 && live > 0, "{fit} {tidied} {full} {live}");
}

#[test]
fn the_start_is_the_one_after_tidying_where_add_would_tidy() {
    // Records of eight bytes, behind the eight of the live one or behind all sixteen.
    for zeros in 0..=9 {
        let expected = if zeros >= 8 { accepts(16, false) } else { accepts(8, true) };
        assert_eq!(previewed(&with_zeros(HALF, zeros), &[0x1021], 3), expected);
    }
}

#[test]
fn a_refused_add_has_no_start_and_would_not_tidy() {
    let full = refuses(Reason::BookFull, 8);
    assert_eq!(previewed(HALF, &[0x1015, 0x102B], 3), full);
    // The removed record's room would do for a word that is live already.
    assert_eq!(previewed(HALF, &[0x1015], 3), refuses(Reason::AlreadyLive, 8));
    // Here the place is 0, where the live record starts.
    assert_eq!(previewed(THREE, &[0x1015, 0x102B], 3), refuses(Reason::AlreadyLive, 0));
}

#[test]
fn the_word_is_stored_first() {
    // 1025 102E is stored as 1026, whose record has a byte less and fits exactly.
    let bytes = with_zeros(HALF, 8);
    assert_eq!(previewed(&bytes, &[0x1025, 0x102E], 3), accepts(16, false));
    let live = *b"MW\x01\x02\0\0\0\x26";
    assert_eq!(previewed(&live, &[0x1025, 0x102E], 3), refuses(Reason::AlreadyLive, 0));
}

#[test]
fn the_stock_number_decides_nothing_and_is_not_written() {
    for stock in [1, 0x0102_0304, u32::MAX] {
        assert_eq!(previewed(HALF, &[0x1021], stock), accepts(8, true));
        assert_eq!(previewed(&[0; 8], &[0x1021], stock), accepts(0, false));
        assert_eq!(previewed(&[0; 7], &[0x1021], stock), refuses(Reason::BookFull, 0));
    }
}

#[test]
fn the_word_is_tested_before_the_book_and_the_book_before_what_it_holds() {
    let mut damaged = with_zeros(HALF, 4);
    damaged[18] = 1;
    let refusals: [(&[u16], u8, usize); 7] = [
        (&[0x0041; WORD_LIMIT + 1], 1, WORD_LIMIT),
        (&[], 8, 0),
        (&[0x1000, 0x1022, 0x1039], 2, 1),
        (&[0x1000, 0x1039], 3, 1),
        (&[0x1000, 0x1000, 0x1039], 4, 3),
        (&[0x1015], 11, 18),
        (&[0x1000; WORD_LIMIT], 11, 18),
    ];
    for (word, number, place) in refusals {
        let preview = previewed(&damaged, word, 3);
        assert_eq!(refused(preview.answer), (number, place));
        assert_eq!((preview.start, preview.tidies), (0, false));
    }
    // Without the stray byte the last two are live already and too long.
    assert_eq!(previewed(&with_zeros(HALF, 4), &[0x1015], 3), refuses(Reason::AlreadyLive, 8));
    let longest = [0x1000; WORD_LIMIT];
    assert_eq!(previewed(&with_zeros(HALF, 4), &longest, 3), refuses(Reason::BookFull, 8));
}

#[test]
fn every_byte_may_be_damaged() {
    let whole = with_zeros(THREE, 3);
    let [mut books, mut others] = [0; 2];
    for at in 0..whole.len() {
        for byte in 0..=u8::MAX {
            let mut damaged = whole.clone();
            damaged[at] = byte;
            let preview = previewed(&damaged, &[0x1000], 3);
            match book::check(&damaged) {
                Ok(_) => {
                    assert_ne!(preview.answer.map_err(|refusal| refusal.number()), Err(11));
                    books += 1;
                }
                Err(no_book) => {
                    assert_eq!(preview, refuses(no_book.reason, no_book.place));
                    others += 1;
                }
            }
        }
    }
    assert!(books > 0 && others > 0, "{books} {others}");
}

#[test]
fn a_buffer_may_have_no_bytes_or_too_many() {
    assert_eq!(previewed(&[], &[0x1000], 3), refuses(Reason::BookFull, 0));
    assert_eq!(previewed(&[], &[], 3), refuses(Reason::EmptyWord, 0));
    assert_eq!(previewed(&[0; BOOK_LIMIT], &[0x1000], 3), accepts(0, false));
    let longer = [0; BOOK_LIMIT + 1];
    assert_eq!(previewed(&longer, &[0x1000], 3), refuses(Reason::NotABook, BOOK_LIMIT));
    assert_eq!(previewed(&longer, &[], 3), refuses(Reason::EmptyWord, 0));
}

#[test]
fn a_part_is_renamed_without_end_and_each_add_is_seen_before() {
    let mut bytes = [0; 32];
    let mut book = Book::new(&mut bytes);
    book.add(&[0x1015], 7).unwrap();
    book.add(&[0x1000], 8).unwrap();
    // Behind the first record there is room for three, so each third name finds it used up.
    let starts = [(16, false), (24, false), (8, true)];
    for (turn, (start, tidies)) in (0u16..99).zip(starts.into_iter().cycle()) {
        let [old, new] = [turn, turn + 1].map(|turn| [0x1000 + turn % 20]);
        book.remove(&old).unwrap();
        assert_eq!(previewed(book.as_bytes(), &new, 8), accepts(start, tidies));
        book.add(&new, 8).unwrap();
        assert_eq!(book.find(&new).unwrap().start, start);
    }
}
