//! Document 01, "The word book", and document 02, "Tidying a book" and "See an add
//! before doing it".
//!
//! Every call takes the whole buffer apart into records, and answers from their
//! list. A tidied book is built anew from the live ones. A preview adds to a copy.

use crate::collation::{begins_with, compare};
use crate::limits::{BOOK_LIMIT, BOOK_RECORD_HEAD, WORD_LIMIT};
use crate::reading::read;
use crate::refusal::Refusal;
use crate::storage::{store, StoredWord};
use crate::word::hand_out;
use std::collections::BTreeMap;

/// "Each record starts with the two bytes 4D 57 (hexadecimal)".
const LIVE: [u8; 2] = [0x4D, 0x57];

/// "a removed one starts with 4D 2D".
const REMOVED: [u8; 2] = [0x4D, 0x2D];

/// "Find gives start and stock number."
#[derive(Clone, Copy, Debug, PartialEq, Eq)]
pub struct Entry {
    /// Where its record starts.
    pub start: usize,
    /// Its stock number.
    pub stock: u32,
}

/// "Add puts a record with the normalised word just after the last record and
/// gives its start."
#[derive(Clone, Copy, Debug, PartialEq, Eq)]
pub struct Added {
    /// Where its record starts.
    pub start: usize,
    /// Whether the book was tidied for it, so that live records may start elsewhere.
    pub tidied: bool,
}

/// Document 02: "The preview gives the answer that add gives on a copy of the book,
/// refusal and place included, and the byte where the record would start. It tells
/// also whether the add would tidy. Where add refuses, the start is 0 and the preview
/// says that it wouldn't tidy."
#[derive(Clone, Copy, Debug, PartialEq, Eq)]
pub struct Preview {
    /// What add answers.
    pub answer: Result<Added, Refusal>,
    /// Where the record would start; 0 where add refuses.
    pub start: usize,
    /// Whether add would tidy; not where it refuses.
    pub tidies: bool,
}

/// What is told of the record that starts at a place.
#[derive(Clone, Copy, Debug, PartialEq, Eq)]
pub struct Told {
    /// Its stock number.
    pub stock: u32,
    /// How many values its word has.
    pub count: usize,
    /// Whether it is live.
    pub live: bool,
}

/// A record of a book.
struct Record {
    entry: Entry,
    live: bool,
    word: Vec<u16>,
}

/// A buffer that is a book.
struct Book {
    records: Vec<Record>,
    /// "just after the last record".
    first_free: usize,
}

/// The number of live records of a book.
pub fn check(buffer: &[u8]) -> Result<usize, Refusal> {
    Ok(Book::of(buffer)?.live().count())
}

/// The live record with the word.
pub fn find(buffer: &[u8], word: &[u16]) -> Result<Entry, Refusal> {
    let word = entered(word)?.word;
    Book::of(buffer)?.entry_of(&word).ok_or(Refusal::NOT_LIVE)
}

/// Document 02: "The starts of all fitting records are written to a lent list of
/// 16-bit numbers, in word order, each once." The whole book is put into its order
/// first, and what does not fit is left out: refusals 1, 8, 2, 3 or 4, 11 and 5.
pub fn find_prefix(buffer: &[u8], query: &[u16], starts: &mut [u16]) -> Result<usize, Refusal> {
    let query = entered(query)?.reading;
    let book = Book::of(buffer)?;
    let fits = |record: &&Record| {
        let reading = read(&record.word).expect("the words of a book are readable");
        begins_with(&reading, &query)
    };
    hand_out(&starts_of(book.in_order().into_iter().filter(fits)), starts)
}

/// "Rank r gives start and stock number of the live record with exactly r live
/// records before it in word order."
pub fn rank(buffer: &[u8], rank: usize) -> Result<Entry, Refusal> {
    let book = Book::of(buffer)?;
    let live = book.in_order();
    match live.get(rank) {
        Some(record) => Ok(record.entry),
        None => Err(Refusal::rank_too_high(live.len())),
    }
}

/// Puts the starts of all live records into the output, in word order: refusals
/// 11 and 5.
pub fn order(buffer: &[u8], starts: &mut [u16]) -> Result<usize, Refusal> {
    let book = Book::of(buffer)?;
    hand_out(&starts_of(book.in_order().into_iter()), starts)
}

/// Where the records start, as 16-bit numbers: no book is longer than [`BOOK_LIMIT`].
fn starts_of<'b>(records: impl Iterator<Item = &'b Record>) -> Vec<u16> {
    records.map(|record| record.entry.start as u16).collect()
}

/// Puts the word of the record that starts at a place into the output, whether it
/// is live or not: refusals 11 and 5; nothing where no record starts there.
pub fn word_at(buffer: &[u8], start: usize, output: &mut [u16]) -> Result<Option<Told>, Refusal> {
    let book = Book::of(buffer)?;
    let Some(record) = book.records.iter().find(|record| record.entry.start == start) else {
        return Ok(None);
    };
    let count = hand_out(&record.word, output)?;
    Ok(Some(Told { stock: record.entry.stock, count, live: record.live }))
}

/// Puts a record behind the last one. Document 02: "Add tidies by itself when its
/// record doesn't fit otherwise but fits after tidying, and in no other case."
pub fn add(buffer: &mut [u8], word: &[u16], stock: u32) -> Result<Added, Refusal> {
    let word = entered(word)?.word;
    let book = Book::of(buffer)?;
    if let Some(entry) = book.entry_of(&word) {
        return Err(Refusal::already_live(entry.start));
    }
    let record = live_record(&word, stock);
    if let Some(room) = buffer[book.first_free..].get_mut(..record.len()) {
        room.copy_from_slice(&record);
        return Ok(Added { start: book.first_free, tidied: false });
    }
    let live = book.live_bytes();
    if live.len() + record.len() > buffer.len() {
        return Err(Refusal::book_full(live.len()));
    }
    write_anew(buffer, &[&live[..], &record].concat());
    Ok(Added { start: live.len(), tidied: true })
}

/// Document 02: "whether a part can be added, and where its record would begin". "The
/// book is untouched."
pub fn preview(buffer: &[u8], word: &[u16], stock: u32) -> Preview {
    let mut copy = buffer.to_vec();
    match add(&mut copy, word, stock) {
        Ok(added) => Preview { answer: Ok(added), start: added.start, tidies: added.tidied },
        Err(refusal) => Preview { answer: Err(refusal), start: 0, tidies: false },
    }
}

/// "Remove changes the record's 57 to 2D, no other byte, and gives its start."
pub fn remove(buffer: &mut [u8], word: &[u16]) -> Result<usize, Refusal> {
    let start = find(buffer, word)?.start;
    buffer[start..start + 2].copy_from_slice(&REMOVED);
    Ok(start)
}

/// Document 02: "Tidying moves the live records to the front, in the order of their
/// starts, closes the gaps, and fills the rest with zero. It gives the live length,
/// the sum of the live records' bytes." It is "refused with 11 alone".
pub fn tidy(buffer: &mut [u8]) -> Result<usize, Refusal> {
    let live = Book::of(buffer)?.live_bytes();
    write_anew(buffer, &live);
    Ok(live.len())
}

/// Makes the buffer these records, from byte 0 on, "then only zero bytes".
fn write_anew(buffer: &mut [u8], records: &[u8]) {
    let (front, rest) = buffer.split_at_mut(records.len());
    front.copy_from_slice(records);
    rest.fill(0);
}

/// The word that goes to the book: "Keys, comparison and the book normalise
/// first." Its tests come in the order 1, 8, 2, 3 or 4.
fn entered(word: &[u16]) -> Result<StoredWord, Refusal> {
    if word.is_empty() {
        return Err(Refusal::EMPTY_WORD);
    }
    store(word)
}

impl Book {
    /// Takes the buffer apart, or answers the first place at which it is no book.
    fn of(buffer: &[u8]) -> Result<Book, Refusal> {
        if buffer.len() > BOOK_LIMIT {
            return Err(Refusal::not_a_book(BOOK_LIMIT));
        }
        let mut records = Vec::new();
        let mut starts_of_live_words = BTreeMap::new();
        let mut rest = buffer;
        // "The records end at the first zero byte that stands where a record would
        // begin, or at the buffer's end".
        while !matches!(rest, [] | [0, ..]) {
            let start = buffer.len() - rest.len();
            let (record, after) = cut(rest, start).ok_or(Refusal::not_a_book(start))?;
            // "no two live records have the same word": "of two equal words, the later"
            // is wrong.
            if record.live && starts_of_live_words.insert(record.word.clone(), start).is_some() {
                return Err(Refusal::not_a_book(start));
            }
            records.push(record);
            rest = after;
        }
        let first_free = buffer.len() - rest.len();
        match rest.iter().position(|&byte| byte != 0) {
            Some(stray) => Err(Refusal::not_a_book(first_free + stray)),
            None => Ok(Book { records, first_free }),
        }
    }

    fn live(&self) -> impl Iterator<Item = &Record> {
        self.records.iter().filter(|record| record.live)
    }

    /// The bytes of the live records, one behind the other in the order of their
    /// starts.
    fn live_bytes(&self) -> Vec<u8> {
        self.live().flat_map(|record| live_record(&record.word, record.entry.stock)).collect()
    }

    fn in_order(&self) -> Vec<&Record> {
        let mut live: Vec<&Record> = self.live().collect();
        live.sort_by(|first, second| {
            compare(&first.word, &second.word).expect("the words of a book are readable")
        });
        live
    }

    fn entry_of(&self, word: &[u16]) -> Option<Entry> {
        self.live().find(|record| record.word == word).map(|record| record.entry)
    }
}

/// The bytes of a live record: "Then come the count n of code values (one byte, …), the
/// stock number (four bytes, low byte first) and n bytes, each a value minus 1000."
fn live_record(word: &[u16], stock: u32) -> Vec<u8> {
    let mut bytes = Vec::from(LIVE);
    bytes.push(word.len() as u8);
    bytes.extend(stock.to_le_bytes());
    bytes.extend(word.iter().map(|value| (value - 0x1000) as u8));
    bytes
}

/// Cuts the record at the front off, if one stands there.
fn cut(bytes: &[u8], start: usize) -> Option<(Record, &[u8])> {
    let (&[first, second, count, ref stock @ ..], rest) =
        bytes.split_first_chunk::<BOOK_RECORD_HEAD>()?;
    let live = match [first, second] {
        LIVE => true,
        REMOVED => false,
        _ => return None,
    };
    let count = usize::from(count);
    if !(1..=WORD_LIMIT).contains(&count) {
        return None;
    }
    let (word, rest) = rest.split_at_checked(count)?;
    let word: Vec<u16> = word.iter().map(|&byte| 0x1000 + u16::from(byte)).collect();
    // "Every record's word, removed ones included, is in storage order and readable".
    if *store(&word).ok()?.word != *word {
        return None;
    }
    let entry = Entry { start, stock: u32::from_le_bytes(*stock) };
    Some((Record { entry, live, word }, rest))
}
