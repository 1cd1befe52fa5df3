//! Document 02, labels: which words are labels, and which of them look alike.
//!
//! A label is tested by what it consists of, not value by value: stops and signs are heads
//! of syllables, and a digit stands next to a value that is none only where a run of
//! digits ends. A skeleton is made rule by rule, each over the whole list.

use crate::collation::{of_both, Which};
use crate::letters::*;
use crate::limits::LABEL_LIMIT;
use crate::reading::{Reading, Syllable};
use crate::refusal::Refusal;
use crate::storage::{store, StoredWord};
use crate::word::{hand_out, Word};

/// The digits of which no one "stands next to a value that isn't a digit".
const CONFUSABLE_DIGITS: [u16; 2] = [DIGIT_ZERO, DIGIT_SEVEN];

/// "1040 becomes 101D, 1047 becomes 101B, 1025 becomes 1009, and 1029 becomes 101E 103C."
pub const REPLACEMENTS: [(u16, &[u16]); 4] =
    [(DIGIT_ZERO, &[WA]), (DIGIT_SEVEN, &[RA]), (LETTER_U, &[NYA]), (LETTER_O, &[SA, MEDIAL_R])];

/// How many syllables the label has: refusals 1, 2, 3 or 4, 21, 22 and 23.
pub fn label(word: &[u16]) -> Result<usize, Refusal> {
    Ok(store_label(word)?.reading.syllables().len())
}

/// The skeleton of a label by value, with the same refusals.
pub fn skeleton(word: &[u16]) -> Result<Vec<u16>, Refusal> {
    Ok(replaced(&store_label(word)?.word))
}

/// "Each label has a skeleton, written to a lent list of values": the same refusals, and 5.
pub fn put_skeleton(word: &[u16], output: &mut [u16]) -> Result<usize, Refusal> {
    hand_out(&skeleton(word)?, output)
}

/// "Two labels look alike exactly when their skeletons are identical".
pub fn look_alike(first: &[u16], second: &[u16]) -> Result<bool, (Which, Refusal)> {
    of_both(first, second, skeleton).map(|(first, second)| first == second)
}

/// "A label is a word that also meets three rules. … The word is normalised first." Each
/// rule is tested on the whole word before the next.
fn store_label(word: &[u16]) -> Result<StoredWord, Refusal> {
    let stored = store(word)?;
    if let Some(place) = first_stop_or_sign(&stored.reading) {
        return Err(Refusal::stop_or_sign(place));
    }
    if let Some(place) = first_confusable_digit(&stored.word) {
        return Err(Refusal::confusable_digit(place));
    }
    if stored.reading.syllables().len() > LABEL_LIMIT {
        return Err(Refusal::TOO_MANY_SYLLABLES);
    }
    Ok(stored)
}

/// "It has no stop and no sign." Either is the head of a syllable, 104E with whatever it
/// carries.
fn first_stop_or_sign(reading: &Reading) -> Option<usize> {
    let is_headed_so = |syllable: &&Syllable| {
        let head = 0x1000 + u16::from(syllable.record[0]);
        matches!(class_of(head), Some(Class::Stop | Class::Sign))
    };
    reading.syllables().iter().find(is_headed_so).map(|syllable| syllable.start)
}

/// "No 1040 or 1047 stands next to a value that isn't a digit." Where a run of digits and
/// a run of others meet, a digit has such a neighbour, and nowhere else: the ends of the
/// word are no values.
fn first_confusable_digit(word: &Word) -> Option<usize> {
    let is_digit = |value: u16| class_of(value) == Some(Class::Digit);
    let runs = word.chunk_by(|&one, &next| is_digit(one) == is_digit(next));
    let ends = runs.scan(0, |end, run| {
        *end += run.len();
        Some(*end)
    });
    let meetings = ends.filter(|&end| end < word.len());
    meetings
        .flat_map(|next| [next - 1, next])
        .find(|&place| CONFUSABLE_DIGITS.contains(&word[place]))
}

/// The values after [`REPLACEMENTS`], one rule behind the other: the list is cut at each
/// value that the rule replaces, and put together again with what it becomes. No rule
/// makes a value that another replaces.
pub fn replaced(values: &[u16]) -> Vec<u16> {
    let mut values = values.to_vec();
    for (from, to) in REPLACEMENTS {
        let between: Vec<&[u16]> = values.split(|&value| value == from).collect();
        values = between.join(to);
    }
    values
}
