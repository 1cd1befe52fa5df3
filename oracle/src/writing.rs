//! The writer: from records to a word.

use crate::formula::writing_of;
use crate::limits::RECORD_SIZE;
use crate::refusal::Refusal;
use crate::syllable::{Piece, Record};
use crate::word::{hand_out, Word};

/// "The writer takes a row as a lent list of bytes … in word order, and writes the
/// word to a lent list of values." Document 02: "a writer's row has eight bytes a
/// syllable." Refusals 6, then 5.
pub fn write(records: &[u8], output: &mut [u16]) -> Result<usize, Refusal> {
    let word = join(records).ok_or(Refusal::NO_SUCH_ROW)?;
    hand_out(&word, output)
}

/// "The writer accepts exactly the rows that the reader can produce"; a list whose
/// length is no multiple of eight is no such row.
fn join(records: &[u8]) -> Option<Word> {
    let (records, []) = records.as_chunks() else { return None };
    let mut word = Word::empty();
    let mut piece = Piece::Head;
    for record in records {
        piece = write_syllable(&mut word, piece, record)?;
    }
    (piece == Piece::Head).then_some(word)
}

/// Writes one syllable, which `head` begins, and answers what begins the next;
/// nothing if the formula has no such syllable or the word gets too long.
fn write_syllable(word: &mut Word, head: Piece, record: &Record) -> Option<Piece> {
    let mut piece = head;
    let mut written: Record = [0; RECORD_SIZE];
    loop {
        let writing = writing_of(piece, record)?;
        word.extend(writing.values())?;
        for &byte in piece.record_bytes() {
            written[byte] = writing.record[byte];
        }
        piece = writing.then;
        if piece.begins_syllable() {
            break;
        }
    }
    // A piece that the syllable cannot have was not written and must be absent.
    (written == *record).then_some(piece)
}
