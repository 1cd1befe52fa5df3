//! Document 01, "Storage order": the normaliser.

use crate::letters::*;
use crate::reading::{check_values, Reading};
use crate::refusal::Refusal;
use crate::rows::row_or_refusal;
use crate::word::{hand_out, Word};

/// "sorted in the order 103B 103C 103D 103E 1031 102D 102E 1032 102F 1030 102B
/// 102C 1036 103A 1037 1038."
const MARK_ORDER: [u16; 16] = [
    MEDIAL_Y, MEDIAL_R, MEDIAL_W, MEDIAL_H, MARK_E, MARK_I, MARK_II, MARK_AI, MARK_U, MARK_UU,
    TALL_AA, AA, MARK_AM, KILLER, DOT, VISARGA,
];

/// The rank of each value from 1000 on in [`MARK_ORDER`], or [`NO_MARK`].
const MARK_RANKS: [u8; 0x40] = {
    let mut ranks = [NO_MARK; 0x40];
    let mut rank = 0;
    while rank < MARK_ORDER.len() {
        ranks[(MARK_ORDER[rank] - 0x1000) as usize] = rank as u8;
        rank += 1;
    }
    ranks
};

const NO_MARK: u8 = u8::MAX;

/// A word in storage order, with its reading.
#[derive(Clone, Copy, Debug)]
pub struct StoredWord {
    /// The values.
    pub word: Word,
    /// Their row of syllables.
    pub reading: Reading,
}

/// Normalises into the output: refusals 1, 2, 3 or 4, and 5.
pub fn normalise(word: &[u16], output: &mut [u16]) -> Result<usize, Refusal> {
    let stored = store(word)?;
    hand_out(&stored.word, output)
}

/// The stored form by value. "The outcome must be a row of syllables, else the
/// word is refused, with a place in that outcome."
pub fn store(word: &[u16]) -> Result<StoredWord, Refusal> {
    let word = outcome(word)?;
    let reading = row_or_refusal(&word)?;
    Ok(StoredWord { word, reading })
}

/// Puts the outcome of rules 1 and 2 into the output, whether it is a row of
/// syllables or not: refusals 1, 2 and 5.
pub fn stored_form(word: &[u16], output: &mut [u16]) -> Result<usize, Refusal> {
    hand_out(&outcome(word)?, output)
}

/// Which value of the word as typed stands at a place of that outcome, by its
/// place in the word; nothing where the outcome has no such place.
pub fn typed_place(word: &[u16], place: usize) -> Result<Option<usize>, Refusal> {
    check_values(word)?;
    Ok(typed_places(word).get(place).copied())
}

/// The outcome of rules 1 and 2.
fn outcome(word: &[u16]) -> Result<Word, Refusal> {
    check_values(word)?;
    let mut word = Word::copy_of(word).ok_or(Refusal::TOO_LONG)?;
    sort_runs(word.values_mut());
    join_letter_u(&mut word);
    Ok(word)
}

/// The typed place of each value of the outcome. Nothing is sorted here: the
/// places of a run are dealt out mark by mark, in the marks' order, and a 102E that
/// comes to stand behind a 1025 is taken up by it.
fn typed_places(word: &[u16]) -> Vec<usize> {
    let mut places: Vec<usize> = Vec::new();
    let mut run = 0..0;
    for end in 0..=word.len() {
        run.end = end;
        if end < word.len() && mark_rank(word[end]) != NO_MARK {
            continue;
        }
        for mark in MARK_ORDER {
            places.extend(run.clone().filter(|&place| word[place] == mark));
        }
        places.extend(Some(end).filter(|&end| end < word.len()));
        run.start = end + 1;
    }
    let values = |place: usize| places.get(place).map(|&typed| word[typed]);
    let taken_up = |place: usize| {
        let before = place.checked_sub(1).and_then(values);
        before == Some(LETTER_U) && values(place) == Some(MARK_II)
    };
    (0..places.len()).filter(|&place| !taken_up(place)).map(|place| places[place]).collect()
}

fn mark_rank(value: u16) -> u8 {
    MARK_RANKS.get(usize::from(value.wrapping_sub(0x1000))).copied().unwrap_or(NO_MARK)
}

/// "Each unbroken run of medials, vowel marks, 103A and tones is sorted".
fn sort_runs(values: &mut [u16]) {
    for run in values.split_mut(|&value| mark_rank(value) == NO_MARK) {
        run.sort_unstable_by_key(|&mark| mark_rank(mark));
    }
}

/// "Then 1025 102E becomes 1026, and a 1025 before 103A or 1039 becomes 1009."
/// Neither outcome makes a new pair, so one pass does both.
fn join_letter_u(word: &mut Word) {
    let values = word.values_mut();
    let (mut from, mut to) = (0, 0);
    while from < values.len() {
        let (value, taken) = match values[from..] {
            [LETTER_U, MARK_II, ..] => (LETTER_UU, 2),
            [LETTER_U, KILLER | STACKER, ..] => (NYA, 1),
            _ => (values[from], 1),
        };
        values[to] = value;
        from += taken;
        to += 1;
    }
    word.shorten(to);
}

#[cfg(test)]
mod tests {
    use super::*;
    use crate::limits::WORD_LIMIT;

    #[test]
    fn the_order_holds_every_mark_once() {
        let marks = admitted_values().filter(|&value| {
            use Class::*;
            matches!(class_of(value), Some(Medial | VowelMark | Killer | Tone))
        });
        let mut order = MARK_ORDER;
        order.sort_unstable();
        assert!(marks.eq(order));
    }

    fn places(word: &[u16]) -> Vec<usize> {
        let all = (0..).map_while(|place| typed_place(word, place).unwrap());
        all.collect()
    }

    #[test]
    fn each_value_of_the_outcome_is_pointed_at_where_it_was_typed() {
        assert_eq!(places(&[]), []);
        assert_eq!(places(&[0x1000, 0x1014, 0x1037, 0x103A]), [0, 1, 3, 2]);
        assert_eq!(places(&[0x1000, 0x102C, 0x1031]), [0, 2, 1]);
        // Of equal marks the one typed first stands first.
        assert_eq!(places(&[0x1000, 0x1038, 0x1038, 0x1037]), [0, 3, 1, 2]);
        // 1025 102E is pointed at where the 1025 was typed.
        assert_eq!(places(&[0x1025, 0x102E]), [0]);
        assert_eq!(places(&[0x1025, 0x1038, 0x102E]), [0, 1]);
        assert_eq!(places(&[0x1025, 0x1031, 0x102E]), [0, 1, 2]);
        assert_eq!(places(&[0x1025, 0x103A]), [0, 1]);
        assert_eq!(places(&[0x1037, 0x103B, 0x1039, 0x1038, 0x1031]), [1, 0, 2, 4, 3]);
    }

    #[test]
    fn the_outcome_is_given_where_the_word_is_refused() {
        let mut output = [0; 4];
        assert_eq!(stored_form(&[0x1000, 0x102C, 0x1031, 0x103B], &mut output), Ok(4));
        assert_eq!(output, [0x1000, 0x103B, 0x1031, 0x102C]);
        let short = stored_form(&[0x1025, 0x102E, 0x103A], &mut output[..1]);
        assert_eq!(short, Err(Refusal::output_too_short(2)));
        assert_eq!(stored_form(&[0x1039, 0x1022], &mut []), Err(Refusal::foreign(1)));
        assert_eq!(stored_form(&[0; WORD_LIMIT + 1], &mut []), Err(Refusal::TOO_LONG));
        assert_eq!(typed_place(&[0x1039, 0x1022], 9), Err(Refusal::foreign(1)));
        assert_eq!(typed_place(&[0; WORD_LIMIT + 1], 0), Err(Refusal::TOO_LONG));
    }
}
