//! The reader: document 01, "Syllable records", and a syllable's part.

use crate::letters::class_of;
use crate::limits::{RECORD_SIZE, WORD_LIMIT};
use crate::refusal::Refusal;
use crate::rows::row_or_refusal;
use crate::syllable::Record;
use crate::word::hand_out;

/// One syllable of a word that was read.
#[derive(Clone, Copy, Debug, PartialEq, Eq)]
pub struct Syllable {
    /// Where its part begins: "at its head or at 103F".
    pub start: usize,
    /// Its bytes.
    pub record: Record,
}

/// "A reading gives the number of syllables, and a record is asked for by
/// number, from 0".
#[derive(Clone, Copy, Debug)]
pub struct Reading {
    syllables: [Syllable; WORD_LIMIT],
    count: usize,
}

impl Reading {
    /// The reading of the word without values.
    pub const fn empty() -> Reading {
        let none = Syllable { start: 0, record: [0; RECORD_SIZE] };
        Reading { syllables: [none; WORD_LIMIT], count: 0 }
    }

    /// The syllables, in their order.
    pub fn syllables(&self) -> &[Syllable] {
        &self.syllables[..self.count]
    }

    pub(crate) fn begin_syllable(&mut self, start: usize) {
        self.syllables[self.count].start = start;
        self.count += 1;
    }

    /// Each piece decides bytes of its own, so adding puts them together.
    pub(crate) fn add_to_last(&mut self, piece: &Record) {
        let record = &mut self.syllables[self.count - 1].record;
        for (byte, added) in record.iter_mut().zip(piece) {
            *byte += added;
        }
    }
}

/// Refusals 1 and 2, in that order: the tests before anything is read.
pub fn check_values(word: &[u16]) -> Result<(), Refusal> {
    if word.len() > WORD_LIMIT {
        return Err(Refusal::TOO_LONG);
    }
    match word.iter().position(|&value| class_of(value).is_none()) {
        Some(place) => Err(Refusal::foreign(place)),
        None => Ok(()),
    }
}

/// Reads the word as it is handed in: "Keys, comparison and the book normalise
/// first. The reader and the spelling-out do not."
pub fn read(word: &[u16]) -> Result<Reading, Refusal> {
    check_values(word)?;
    row_or_refusal(word)
}

/// The answer to a request for a record.
#[derive(Clone, Copy, Debug, PartialEq, Eq)]
pub struct RecordAnswer {
    /// Why the word is refused, if it is.
    pub refusal: Option<Refusal>,
    /// "the answer tells whether there is such a syllable"
    pub present: bool,
    /// "and if not, the … bytes are 0."
    pub record: Record,
}

/// The record of the syllable with this number, from 0.
pub fn record(word: &[u16], number: usize) -> RecordAnswer {
    let none = RecordAnswer { refusal: None, present: false, record: [0; RECORD_SIZE] };
    match read(word) {
        Err(refusal) => RecordAnswer { refusal: Some(refusal), ..none },
        Ok(reading) => match reading.syllables().get(number) {
            None => none,
            Some(syllable) => RecordAnswer { present: true, record: syllable.record, ..none },
        },
    }
}

/// Puts that record into the output and answers how many bytes it has: refusals 1, 2, 3
/// or 4, and 5; nothing where there is no such syllable.
pub fn put_record(
    word: &[u16],
    number: usize,
    output: &mut [u8],
) -> Result<Option<usize>, Refusal> {
    match read(word)?.syllables().get(number) {
        None => Ok(None),
        Some(syllable) => hand_out(&syllable.record, output).map(Some),
    }
}

/// "The syllable asked for by number, from 0, comes back as a part of the
/// caller's own word. Where the word is refused or has no such syllable, that
/// part is empty."
pub fn part(word: &[u16], number: usize) -> &[u16] {
    let Ok(reading) = read(word) else { return &[] };
    let mut starts = reading.syllables().iter().map(|syllable| syllable.start).skip(number);
    match starts.next() {
        None => &[],
        Some(start) => &word[start..starts.next().unwrap_or(word.len())],
    }
}
