//! Spelled-out syllables.

use crate::formula::writing_of;
use crate::letters::KILLER;
use crate::limits::{SPELLED_LIMIT, WORD_LIMIT};
use crate::reading::read;
use crate::refusal::Refusal;
use crate::syllable::{Piece, Record};
use crate::word::hand_out;

/// How much was written to each of the two lists.
#[derive(Clone, Copy, Debug, PartialEq, Eq)]
pub struct SpelledLengths {
    /// Values in the first list.
    pub values: usize,
    /// Starts of syllables in the second list.
    pub starts: usize,
}

/// "The values go joined to one lent list, and the place in it where each
/// spelled syllable begins goes to a second; for refusal 5 the first list is
/// tested first."
pub fn spell_out(
    word: &[u16],
    values_output: &mut [u16],
    starts_output: &mut [usize],
) -> Result<SpelledLengths, Refusal> {
    let reading = read(word)?;
    let mut values = Vec::with_capacity(SPELLED_LIMIT);
    let mut starts = Vec::with_capacity(WORD_LIMIT);
    for syllable in reading.syllables() {
        starts.push(values.len());
        spell_syllable(&syllable.record, &mut values);
    }
    if values_output.len() < values.len() {
        return Err(Refusal::output_too_short(values.len()));
    }
    // The second list is tested before the first is written to.
    let starts = hand_out(&starts, starts_output)?;
    let values = hand_out(&values, values_output)?;
    Ok(SpelledLengths { values, starts })
}

/// "a stacked final or kinzi becomes the letter and 103A, and 103F becomes 101E
/// 103A, a boundary, 101E": every head and every final is spelled as a letter, and two
/// finals stay in one syllable.
fn spell_syllable(record: &Record, values: &mut Vec<u16>) {
    let [head, _, _, _, first_final, second_final, _, _] = *record;
    let spell_piece = |piece| {
        let writing = writing_of(piece, record).expect("a record that the reader made");
        writing.values()
    };
    values.push(0x1000 + u16::from(head));
    values.extend(spell_piece(Piece::MedialGroup));
    values.extend(spell_piece(Piece::Vowel));
    for weight in [first_final, second_final] {
        if weight > 0 {
            values.extend([0x1000 + u16::from(weight) - 1, KILLER]);
        }
    }
    values.extend(spell_piece(Piece::Tone));
}
