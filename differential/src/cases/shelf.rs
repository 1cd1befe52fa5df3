//! The book that the calls go on with, until a new one is begun.

use super::queries::continuing;
use super::words::valid;
use crate::case::Case;
use crate::lent::{Memory, MARGIN};
use crate::outcome::{Answer, Outcome};
use crate::Call;
use oracle::limits::{BOOK_LIMIT, BOOK_RECORD_HEAD};
use oracle::random::Random;
use oracle::storage::store;
use std::collections::BTreeSet;

/// A book, and the words that were handed to it.
pub struct Shelf {
    /// The whole buffer.
    pub bytes: Vec<u8>,
    /// Where each record starts.
    pub starts: Vec<usize>,
    /// The first free byte.
    pub end: usize,
    /// Stored words of records, live, removed or tidied away.
    pub words: Vec<Vec<u16>>,
    /// How many of a hundred words begin as another does.
    alike: usize,
    calls_left: usize,
    number: usize,
}

/// One of so many books is of the longest kind, and full or nearly so.
const LONGEST_ONE_OF: usize = 75;

/// Books of more bytes are long.
const LONG: usize = 1_500;

impl Shelf {
    /// A book without bytes.
    pub fn new() -> Shelf {
        Shelf {
            bytes: Vec::new(),
            starts: Vec::new(),
            end: 0,
            words: Vec::new(),
            alike: 0,
            calls_left: 0,
            number: 0,
        }
    }

    /// Counts a call, and begins another book where this one had its calls.
    pub fn turn(&mut self, random: &mut Random) {
        if self.calls_left == 0 {
            *self = Shelf::begun(random, self.number + 1);
        }
        self.calls_left -= 1;
    }

    /// A book of some size: empty, partly filled or full.
    fn begun(random: &mut Random, number: usize) -> Shelf {
        let size = match random.below(100) {
            _ if number.is_multiple_of(LONGEST_ONE_OF) => {
                BOOK_LIMIT - random.below(2) * random.below(40)
            }
            0..8 => random.below(20),
            8..80 => random.between(20, 300),
            80..99 => random.between(300, LONG),
            _ => random.between(LONG, 6_000),
        };
        let alike = random.pick(&[10, 60, 95]);
        let mut shelf = Shelf { bytes: vec![0; size], alike, number, ..Shelf::new() };
        shelf.calls_left = if size < LONG { random.between(10, 60) } else { 16 };
        let filled = match random.below(4) {
            _ if size > LONG => size - random.below(30),
            0 => random.below(size + 1),
            1 | 2 => size,
            _ => 0,
        };
        // In a long book few removed records are room enough for any word.
        let removed = random.pick(if size > LONG { &[0, 0, 20] } else { &[0, 20, 20, 60, 95] });
        shelf.fill(random, filled, removed);
        shelf
    }

    /// Puts records of different words there, until the next would pass the given byte; so many of a
    /// hundred are removed.
    fn fill(&mut self, random: &mut Random, to: usize, removed: usize) {
        let mut live = BTreeSet::new();
        loop {
            let Ok(stored) = store(&self.another(random)) else { continue };
            let word = stored.word.to_vec();
            if self.end + BOOK_RECORD_HEAD + word.len() > to {
                return;
            }
            let mark = if random.chance(removed) { b"M-" } else { b"MW" };
            if mark == b"MW" && !live.insert(word.clone()) {
                continue;
            }
            let stock = random.below(1 << 32) as u32;
            let record = [mark, &[word.len() as u8][..], &stock.to_le_bytes(), &letters(&word)];
            let record = record.concat();
            self.bytes[self.end..][..record.len()].copy_from_slice(&record);
            self.starts.push(self.end);
            self.end += record.len();
            self.words.push(word);
        }
    }

    /// A word to be added: it may begin as another does.
    pub fn another(&self, random: &mut Random) -> Vec<u16> {
        if random.chance(self.alike) {
            continuing(random, self)
        } else {
            valid(random)
        }
    }

    /// Whether the book is long.
    pub fn is_long(&self) -> bool {
        self.bytes.len() > LONG
    }

    /// Goes on from what an accepted call left, if it was on this very book.
    pub fn take_note(&mut self, case: &Case, outcome: &Outcome) {
        let (Answer::Accepted(numbers), Some(Memory::Bytes(cells))) =
            (&outcome.answer, outcome.lent.first())
        else {
            return;
        };
        if !case.call.changes_book() || case.bytes != self.bytes {
            return;
        }
        self.bytes.copy_from_slice(&cells[MARGIN..cells.len() - MARGIN]);
        self.find_records();
        if case.call == Call::BookAdd {
            let start = numbers[0] as usize;
            let letters = &self.bytes[start + BOOK_RECORD_HEAD..start + self.record_length(start)];
            self.words.push(letters.iter().map(|&letter| 0x1000 + u16::from(letter)).collect());
        }
    }

    /// Takes note of where the records start, and where they end.
    fn find_records(&mut self) {
        self.starts.clear();
        self.end = 0;
        while self.bytes.get(self.end) == Some(&b'M') {
            self.starts.push(self.end);
            self.end += self.record_length(self.end);
        }
    }

    fn record_length(&self, start: usize) -> usize {
        BOOK_RECORD_HEAD + usize::from(self.bytes[start + 2])
    }

    /// How many bytes the live records have.
    pub fn live_length(&self) -> usize {
        let live = self.starts.iter().filter(|&&start| self.bytes[start + 1] == b'W');
        live.map(|&start| self.record_length(start)).sum()
    }
}

/// The values of a stored word as a record holds them.
pub fn letters(word: &[u16]) -> Vec<u8> {
    word.iter().map(|value| (value - 0x1000) as u8).collect()
}
