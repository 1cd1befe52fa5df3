//! Words made by chance: valid ones, and valid ones that were changed.

use super::picked_rows::{random_row, row_of_length};
use crate::formula::writings;
use crate::letters::{admitted_values, class_of, Class, STACKER};
use crate::limits::WORD_LIMIT;
use crate::random::Random;
use crate::syllable::Piece;

/// A row of one to five syllables, often with one more at its end.
pub fn valid(random: &mut Random) -> Vec<u16> {
    let syllables = random.between(1, 5);
    random_row(random, syllables).values
}

/// A row of more than half as many values as a word may have.
pub fn long(random: &mut Random) -> Vec<u16> {
    let length = random.between(WORD_LIMIT / 2 + 1, WORD_LIMIT);
    row_of_length(random, length).values
}

/// A valid word with each run of marks in another order.
pub fn shuffled(random: &mut Random) -> Vec<u16> {
    let mut word = valid(random);
    shuffle_runs(random, &mut word);
    word
}

/// Puts each run of marks into another order.
pub fn shuffle_runs(random: &mut Random, word: &mut [u16]) {
    for run in word.split_mut(|&value| !is_mark(value)) {
        random.shuffle(run);
    }
}

fn is_mark(value: u16) -> bool {
    matches!(class_of(value), Some(Class::Medial | Class::VowelMark | Class::Killer | Class::Tone))
}

/// 1025 before what changes it, and before what only comes near.
pub const WITH_LETTER_U: [&[u16]; 22] = [
    &[0x1025, 0x102E],
    &[0x1025, 0x102E, 0x1014, 0x103A],
    &[0x1000, 0x1025, 0x103A],
    &[0x1000, 0x1025, 0x1039, 0x1005],
    &[0x1000, 0x102E, 0x1025, 0x1037, 0x103A],
    &[0x1000, 0x1025, 0x103A, 0x1039, 0x1005],
    &[0x1000, 0x1025, 0x1039],
    &[0x1025],
    &[0x1026],
    &[0x1025, 0x1025, 0x102E],
    &[0x1025, 0x102E, 0x102E],
    &[0x1000, 0x1025, 0x103A, 0x102E],
    &[0x1025, 0x1038, 0x102E],
    &[0x1025, 0x1031, 0x102E],
    &[0x1025, 0x103F],
    &[0x1025, 0x1000, 0x1039, 0x1000],
    &[0x1025, 0x1025, 0x103A],
    &[0x1023, 0x1025, 0x1039, 0x1005],
    &[0x1040, 0x1025, 0x103A],
    &[0x1025, 0x103A],
    &[0x1025, 0x1039, 0x1005],
    &[0x1025, 0x1038, 0x103F],
];

/// A word with 1025 before what changes it, or before what only comes near.
pub fn letter_u(random: &mut Random) -> Vec<u16> {
    let mut word = valid(random);
    word.extend(random.pick(&WITH_LETTER_U));
    if random.chance(30) {
        word.push(random.pick(&[0x102E, 0x1037, 0x1038, 0x103A, 0x102D, 0x1031, 0x103B]));
    }
    if random.chance(60) {
        word.extend(valid(random));
    }
    if random.chance(40) {
        shuffle_runs(random, &mut word);
    }
    word
}

/// The first values of a valid word, often cut just after a stacker.
pub fn beginning(random: &mut Random) -> Vec<u16> {
    let mut word = valid(random);
    let after_stacker = word.iter().rposition(|&value| value == STACKER).map(|place| place + 1);
    let length = match after_stacker {
        Some(length) if random.chance(70) => length,
        _ => random.below(word.len() + 1),
    };
    word.truncate(length);
    word
}

/// A valid word with one value deleted, inserted, replaced or swapped with its
/// neighbour; now and then with two such faults.
pub fn damaged(random: &mut Random) -> Vec<u16> {
    let mut word = valid(random);
    for _ in 0..random.pick(&[1, 1, 1, 2]) {
        damage(random, &mut word);
    }
    word
}

/// Does one such damage.
pub fn damage(random: &mut Random, word: &mut Vec<u16>) {
    let place = random.below(word.len().max(1));
    let (fault, value) = (random.below(4), any_admitted(random));
    match fault {
        0 if !word.is_empty() => drop(word.remove(place)),
        1 if !word.is_empty() => word[place] = value,
        2 if place + 1 < word.len() => word.swap(place, place + 1),
        _ => {
            let place = random.below(word.len() + 1);
            word.insert(place, value);
        }
    }
}

/// Any admitted value, marks more often than letters, since they decide more.
fn any_admitted(random: &mut Random) -> u16 {
    let values: Vec<u16> = admitted_values().collect();
    if random.chance(50) {
        return random.pick(&values);
    }
    let deciding: Vec<u16> =
        values.into_iter().filter(|&value| (0x102B..=0x103F).contains(&value)).collect();
    random.pick(&deciding)
}

/// Writings of pieces in any order.
pub fn loose_pieces(random: &mut Random) -> Vec<u16> {
    let mut word = Vec::new();
    for _ in 0..random.between(1, 8) {
        let piece = random.pick(&Piece::ALL);
        let all: Vec<_> = writings(piece).collect();
        word.extend(random.pick(&all).values());
    }
    word
}

/// Admitted values in any order.
pub fn noise(random: &mut Random) -> Vec<u16> {
    let length = random.below(13);
    let values: Vec<u16> = admitted_values().collect();
    let common = [0x1000, 0x1004, 0x101E, 0x1039, 0x103A, 0x103F, 0x1031, 0x102C];
    let mut any = |_| {
        if random.chance(70) {
            random.pick(&values)
        } else {
            random.pick(&common)
        }
    };
    (0..length).map(&mut any).collect()
}

/// A valid or damaged word with one or two foreign values in it.
pub fn foreign(random: &mut Random) -> Vec<u16> {
    let mut word = if random.chance(50) { valid(random) } else { damaged(random) };
    for _ in 0..random.pick(&[1, 1, 2]) {
        let place = random.below(word.len() + 1);
        let value = any_foreign(random);
        word.insert(place, value);
    }
    word
}

/// A foreign value that a line can hold; rarely one that is refused as bytes.
pub fn any_foreign(random: &mut Random) -> u16 {
    match random.below(10) {
        0..5 => random.pick(&[0x1022, 0x1028, 0x1033, 0x1034, 0x1035]),
        5..9 => random.between(0x1050, 0x107F) as u16,
        _ => random.pick(&[0x0FFF, 0x1080, 0x10FF, 0x2000, 0x0E01, 0xAA60, 0xFFFF, 0x0800]),
    }
}
