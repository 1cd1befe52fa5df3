//! Labels by what decides over them: digits and their neighbours, stops and signs, letters
//! that are replaced, and the number of syllables.

use super::changes::shuffle_runs;
use super::products::{after_final, joined, of, Words};
use crate::labels::REPLACEMENTS;
use crate::letters::{admitted_values, is_head, KILLER, LETTER_O, VISARGA};
use crate::limits::LABEL_LIMIT;
use crate::random::Random;
use crate::rows::row_of;
use crate::syllable::Piece;
use std::slice::from_ref;

/// Every word of up to four of these: digits that may be refused and one that is not, a letter
/// and a stop.
pub fn digits() -> Words {
    let mut words = vec![Vec::new()];
    let mut longest = words.clone();
    for _ in 0..4 {
        let longer = |word: &Vec<u16>| {
            [0x1040, 0x1047, 0x1049, 0x1000, 0x104B].map(|value| joined(&[word, &[value]]))
        };
        longest = longest.iter().flat_map(longer).collect();
        words.extend_from_slice(&longest);
    }
    words
}

/// Digits behind each value that a row can end in, and before each that it can begin with.
pub fn neighbours() -> impl Iterator<Item = Vec<u16>> {
    [0x1040, 0x1047, 0x1041, 0x1048].into_iter().flat_map(|digit| {
        let rows = admitted_values().filter_map(row_that_ends_in);
        let behind = rows.map(move |row| joined(&[&row, &[digit]]));
        let heads = admitted_values().filter(|&value| is_head(value));
        behind.chain(heads.map(move |head| vec![digit, head]))
    })
}

/// The shortest such row; none ends in 1039.
fn row_that_ends_in(value: u16) -> Option<Vec<u16>> {
    let rows = [0, 1, 2].map(|letters| joined(&[&[0x1000; 2][..letters], &[value]]));
    rows.into_iter().find(|row| row_of(row).is_some())
}

/// The stops and the signs, of which one has all that it can carry as well.
const STOPS_AND_SIGNS: [&[u16]; 7] = [
    &[0x104A],
    &[0x104B],
    &[0x104C],
    &[0x104D],
    &[0x104E],
    &[0x104F],
    &[0x104E, 0x1004, 0x103A, 0x1005, 0x103A, 0x1038],
];

/// Words that are labels or are refused for another rule, one of them stored with a value less.
const INTERRUPTED: [&[u16]; 8] = [
    &[0x1000, 0x102C, 0x1038],
    &[0x1025, 0x102E, 0x1000],
    &[0x1010, 0x1000, 0x1039, 0x1000],
    &[0x1040, 0x1047],
    &[0x1000, 0x1040],
    &[0x1000; LABEL_LIMIT - 1],
    &[0x1000; LABEL_LIMIT],
    &[0x1000; LABEL_LIMIT + 1],
];

/// Each of those words with each stop and sign at each place.
pub fn stops_and_signs() -> Words {
    let mut words = Words::new();
    for word in INTERRUPTED {
        for place in 0..=word.len() {
            let (before, behind) = word.split_at(place);
            words.extend(STOPS_AND_SIGNS.map(|stop| joined(&[before, stop, behind])));
        }
    }
    words
}

/// Letters that are replaced, what they look like, and 1025 where it is stored as another.
const REPLACED: [&[u16]; 6] =
    [&[0x1025], &[0x1009], &[0x1029], &[0x101E, 0x103C], &[0x1025, 0x102E], &[0x1026]];

/// Each of those letters with every final.
pub fn replaced_by_finals() -> Words {
    let mut words = Words::new();
    for (number, ending) in of(Piece::Final).into_iter().enumerate() {
        let next = after_final(ending, number);
        words.extend(REPLACED.map(|head| joined(&[head, ending.values(), &next])));
    }
    words
}

/// Digits, alone and with neighbours that are digits.
const DIGITS: [&[u16]; 8] = [
    &[0x1040],
    &[0x1047],
    &[0x1041],
    &[0x1049],
    &[0x1041, 0x1040, 0x1049],
    &[0x1041, 0x1040, 0x1047, 0x1048],
    &[0x1049, 0x1047],
    &[0x1040, 0x1046],
];

/// Letters that are replaced or look like those that are, and some others.
const LETTERS: [&[u16]; 18] = [
    &[0x1025],
    &[0x1009],
    &[0x1025, 0x1000, 0x103A],
    &[0x1009, 0x1000, 0x103A],
    &[0x1029],
    &[0x101E, 0x103C],
    &[0x1029, 0x1014, 0x103A, 0x1038],
    &[0x101E, 0x103C, 0x1014, 0x103A, 0x1038],
    &[0x101E, 0x103C, 0x103D, 0x1031],
    &[0x1000, 0x1025, 0x103A],
    &[0x1000, 0x1000, 0x1039, 0x101E, 0x103C],
    &[0x1025, 0x102E],
    &[0x1026],
    &[0x101D],
    &[0x101B, 0x103D],
    &[0x1000],
    &[0x1000, 0x103B, 0x1031, 0x102C, 0x1037],
    &[0x1018, 0x1010, 0x103A, 0x1005, 0x103A],
];

/// A row of letters, of digits or of both, often of about as many syllables as may be; sometimes
/// a stop or a sign is among them.
pub fn likely_label(random: &mut Random) -> Vec<u16> {
    let near_the_limit = [0, 1, 2, 2, 3, 4].map(|more| LABEL_LIMIT - 2 + more);
    let syllables = random.pick(&[&[0, 1, 1, 2, 2, 3, 4, 5][..], &near_the_limit].concat());
    let of_digits = random.pick(&[0, 0, 25, 100]);
    let of_stops = random.pick(&[0, 0, 0, 0, 10]);
    let mut word = Vec::new();
    for _ in 0..syllables {
        word.extend(if random.chance(of_stops) {
            random.pick(&STOPS_AND_SIGNS)
        } else if random.chance(of_digits) {
            random.pick(&DIGITS)
        } else {
            random.pick(&LETTERS)
        });
    }
    if random.chance(20) {
        shuffle_runs(random, &mut word);
    }
    word
}

/// The word with some values exchanged for what they look like, one way or the other.
pub fn exchanged(random: &mut Random, word: &[u16]) -> Vec<u16> {
    let pairs = REPLACEMENTS.iter().flat_map(|(value, looks)| {
        let value = from_ref(value);
        [(value, *looks), (*looks, value)]
    });
    let pairs: Vec<(&[u16], &[u16])> = pairs.collect();
    let mut other = Vec::new();
    let mut rest = word;
    while let [value, behind @ ..] = rest {
        match pairs.iter().find(|(from, _)| rest.starts_with(from)) {
            Some((from, to)) if random.chance(50) => {
                other.extend_from_slice(to);
                rest = &rest[from.len()..];
            }
            _ => {
                other.push(*value);
                rest = behind;
            }
        }
    }
    other
}

/// Words, each with one that mostly looks like it behind it.
pub fn pairs() -> impl Iterator<Item = Vec<u16>> {
    let mut random = Random::of("pairs");
    (0..400).flat_map(move |_| {
        let word = likely_label(&mut random);
        let other = exchanged(&mut random, &word);
        [word, other]
    })
}

/// About as many syllables and values as a label may have, with 1029 in most of the syllables.
pub fn long_skeleton(random: &mut Random) -> Vec<u16> {
    let final_letter = |random: &mut Random| random.between(0x1000, 0x1020) as u16;
    let mut word = Vec::new();
    for _ in 0..LABEL_LIMIT - random.pick(&[2, 1, 1, 1, 0]) {
        let (first, second) = (final_letter(random), final_letter(random));
        word.extend([LETTER_O, first, KILLER, second, KILLER]);
        word.extend(Some(VISARGA).filter(|_| random.chance(90)));
    }
    let medials = &[0x103B, 0x103D, 0x103E][..random.below(4)];
    let behind = [0x1031, 0x102C, 0x103A, 0x1014, 0x103A, 0x1005, 0x103A, 0x1038];
    joined(&[&word, &[final_letter(random)], medials, &behind])
}
