//! Two finals in one syllable: every pair of them on every kind of head, and what comes near
//! to them, most of which is refused.

use super::changes::{shuffle_runs, valid};
use super::products::{head_in_turn, heads_before, joined, of, Words};
use crate::formula::writings;
use crate::letters::{KILLER, STACKER};
use crate::random::Random;
use crate::syllable::{Piece, TONES};

/// Words that are readable: each second final behind each first, on each head that takes
/// no marks, and behind each medial group and vowel.
pub fn readable() -> impl Iterator<Item = Vec<u16>> {
    let products: [fn() -> Words; 3] =
        [firsts_by_seconds, markless_by_seconds, medials_by_vowels_before_two];
    products.into_iter().flat_map(|product| product())
}

/// Plain finals in turn.
fn final_in_turn(number: usize) -> [u16; 2] {
    [0x1000 + (number % 33) as u16, KILLER]
}

/// The second finals that are written.
fn seconds() -> impl Iterator<Item = &'static [u16]> {
    writings(Piece::SecondFinal).map(|second| second.values()).filter(|values| !values.is_empty())
}

fn firsts_by_seconds() -> Words {
    let mut words = Words::new();
    for first in writings(Piece::Final).filter(|first| first.then == Piece::SecondFinal) {
        for second in seconds() {
            let (head, tone) = (head_in_turn(words.len()), TONES[words.len() % TONES.len()]);
            words.push(joined(&[&head, first.values(), second, tone]));
        }
    }
    words
}

fn markless_by_seconds() -> Words {
    let mut words = Words::new();
    for head in heads_before(Piece::Final) {
        for second in seconds() {
            let (first, tone) = (final_in_turn(words.len() * 2), TONES[words.len() % TONES.len()]);
            words.push(joined(&[head.values(), &first, second, tone]));
        }
    }
    words
}

/// With one more syllable behind them.
fn medials_by_vowels_before_two() -> Words {
    let mut words = Words::new();
    for medial in of(Piece::MedialGroup) {
        for vowel in of(Piece::Vowel) {
            let (head, number) = (head_in_turn(words.len()), words.len());
            let finals = [final_in_turn(number * 5), final_in_turn(number)].concat();
            words.push(joined(&[&head, medial.values(), vowel.values(), &finals, &head]));
        }
    }
    words
}

/// What a syllable has before its finals, on a head of each kind.
const BEFORE: [&[u16]; 10] = [
    &[0x1018],
    &[0x1021],
    &[0x1000, 0x103B, 0x103D, 0x1031, 0x102B, 0x103A],
    &[0x1010, 0x1000, 0x1039, 0x1000],
    &[0x1021, 0x1004, 0x103A, 0x1039, 0x1002, 0x102F],
    &[0x1015, 0x103C, 0x103F],
    &[0x1025],
    &[0x104E],
    &[0x104C],
    &[0x1040],
];

/// Two finals, with a tone and as they are typed; and what stands where a second final
/// would, a third one, and a tone between them.
const ENDINGS: [&[u16]; 32] = [
    &[0x1010, 0x103A, 0x1005, 0x103A],
    &[0x1010, 0x103A, 0x1005, 0x103A, 0x1037],
    &[0x1010, 0x103A, 0x1005, 0x103A, 0x1038],
    &[0x1010, 0x103A, 0x1005, 0x1037, 0x103A],
    &[0x1010, 0x103A, 0x1010, 0x103A],
    &[0x1004, 0x103A, 0x1004, 0x103A],
    &[0x1004, 0x103A, 0x1000, 0x103A],
    &[0x1000, 0x103A, 0x1004, 0x103A],
    &[0x1025, 0x103A, 0x1025, 0x103A],
    &[0x1010, 0x103A, 0x1009, 0x103A, 0x1005],
    &[0x1010, 0x103A, 0x1005],
    &[0x1010, 0x103A, 0x1005, 0x102C],
    &[0x1010, 0x103A, 0x1005, 0x1000, 0x103A],
    &[0x1010, 0x103A, 0x1005, 0x1000, 0x103A, 0x1005, 0x103A],
    &[0x1010, 0x1039, 0x1005, 0x1000, 0x103A, 0x1005, 0x103A],
    &[0x103F, 0x1010, 0x103A, 0x1005, 0x103A],
    // A third final, and a fourth.
    &[0x1000, 0x103A, 0x1005, 0x103A, 0x1019, 0x103A],
    &[0x1000, 0x103A, 0x1000, 0x103A, 0x1000, 0x103A, 0x1000, 0x103A],
    // Second finals that are stacked, kinzi or half of 103F.
    &[0x1000, 0x103A, 0x1005, 0x1039],
    &[0x1000, 0x103A, 0x1005, 0x1039, 0x1005],
    &[0x1000, 0x103A, 0x1005, 0x103A, 0x1039, 0x1005],
    &[0x1000, 0x103A, 0x1004, 0x103A, 0x1039],
    &[0x1000, 0x103A, 0x1004, 0x103A, 0x1039, 0x1002],
    &[0x1000, 0x103A, 0x103F],
    &[0x1000, 0x103A, 0x1005, 0x103A, 0x103F],
    // A tone between, typed there or brought there by sorting.
    &[0x1010, 0x103A, 0x1037, 0x1005, 0x103A],
    &[0x1010, 0x1037, 0x103A, 0x1005, 0x103A],
    // Letters that are no finals, and marks.
    &[0x1010, 0x103A, 0x1021, 0x103A],
    &[0x1010, 0x103A, 0x1023, 0x103A],
    &[0x1010, 0x103A, 0x1005, 0x103A, 0x103A],
    &[0x1010, 0x103A, 0x1005, 0x103A, 0x102D],
    &[0x1010, 0x103A, 0x1005, 0x103A, 0x1037, 0x1038],
];

/// Each ending on a head of each kind.
pub fn near() -> impl Iterator<Item = Vec<u16>> {
    BEFORE.into_iter().flat_map(|before| ENDINGS.map(|ending| [before, ending].concat()))
}

/// A word with more finals behind it, or a head with what comes near to two.
pub fn crowded(random: &mut Random) -> Vec<u16> {
    let mut word = if random.chance(50) { with_finals(random) } else { with_ending(random) };
    if random.chance(30) {
        word.extend(valid(random));
    }
    if random.chance(40) {
        shuffle_runs(random, &mut word);
    }
    word
}

/// A head of any kind with one of the endings, now and then behind a word.
fn with_ending(random: &mut Random) -> Vec<u16> {
    let mut word = if random.chance(30) { valid(random) } else { Vec::new() };
    word.extend(random.pick(&BEFORE));
    word.extend(random.pick(&ENDINGS));
    word
}

/// A word with one to four finals behind it, of which one may be stacked, and a tone
/// between them or at their end.
fn with_finals(random: &mut Random) -> Vec<u16> {
    let mut word = valid(random);
    let count = random.pick(&[1, 2, 2, 2, 3, 3, 4]);
    let (toned, stacked) = (random.below(2 * count), random.below(6 * count));
    for number in 0..count {
        let letter = random.pick(&[0x1000, 0x1004, 0x1005, 0x1009, 0x1010, 0x101E, 0x1020]);
        word.extend([letter, if number == stacked { STACKER } else { KILLER }]);
        if number == toned {
            word.push(random.pick(&[0x1037, 0x1038]));
        }
    }
    word
}
