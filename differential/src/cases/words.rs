//! Words: valid ones, damaged ones, and values by chance.

use oracle::formula::writings;
use oracle::letters::{admitted_values, class_of, Class};
use oracle::limits::WORD_LIMIT;
use oracle::lists::{crowded, random_row, row_of_length, shuffle_runs, WITH_LETTER_U};
use oracle::random::Random;
use oracle::syllable::Piece;
use std::sync::LazyLock;

static ADMITTED: LazyLock<Vec<u16>> = LazyLock::new(|| admitted_values().collect());

/// A word of any kind.
pub fn word(random: &mut Random) -> Vec<u16> {
    match random.below(100) {
        0..2 => Vec::new(),
        2..22 => valid(random),
        22..26 => long(random),
        26..31 => at_the_limit(random),
        31..43 => shuffled(random),
        43..58 => damaged(random),
        58..63 => markless(random),
        63..69 => crowded(random),
        69..75 => beginning(random),
        75..79 => doubled(random),
        79..84 => letter_u(random),
        84..88 => loose_pieces(random),
        88..91 => admitted(random),
        91..96 => foreign(random),
        96..99 => any_values(random),
        _ => overlong(random),
    }
}

/// A word that is near another in the word order, or any word.
pub fn neighbour(random: &mut Random, first: &[u16]) -> Vec<u16> {
    let mut second = first.to_vec();
    match random.below(10) {
        0 => {}
        1..3 => shuffle_runs(random, &mut second),
        3..6 => damage(random, &mut second),
        6 => second.truncate(random.below(first.len() + 1)),
        7 => {
            for value in &mut second {
                if matches!(*value, 0x102B | 0x102C) && random.chance(50) {
                    *value ^= 0x102B ^ 0x102C;
                }
            }
        }
        8 => change_finals(random, &mut second),
        _ => second = word(random),
    }
    second
}

/// Where letters stand that have a killer each, one behind the other.
fn two_killed(word: &[u16]) -> Vec<usize> {
    let fits = |four: &[u16]| matches!(four, [0x1000..=0x1020, 0x103A, 0x1000..=0x1020, 0x103A]);
    let places = word.windows(4).enumerate().filter(|(_, four)| fits(four));
    places.map(|(place, _)| place).collect()
}

/// Exchanges two finals, leaves the second or the first one out, or has a vowel instead of the
/// second; any other damage where no two stand together.
pub fn change_finals(random: &mut Random, word: &mut Vec<u16>) {
    let places = two_killed(word);
    if places.is_empty() {
        return damage(random, word);
    }
    let first = random.pick(&places);
    match random.below(4) {
        0 => word.swap(first, first + 2),
        1 => drop(word.drain(first + 2..first + 4)),
        2 => drop(word.drain(first..first + 2)),
        _ => {
            word.drain(first + 2..first + 4);
            word.insert(first, random.pick(&[0x102C, 0x102D, 0x1036]));
        }
    }
}

/// A row of up to six syllables.
pub fn valid(random: &mut Random) -> Vec<u16> {
    let syllables = random.pick(&[1, 1, 2, 2, 3, 4, 5]);
    random_row(random, syllables).values
}

fn long(random: &mut Random) -> Vec<u16> {
    let length = random.between(20, WORD_LIMIT);
    row_of_length(random, length).values
}

/// About [`WORD_LIMIT`] values, sometimes with an end that is not finished or that is stored shorter.
fn at_the_limit(random: &mut Random) -> Vec<u16> {
    let endings: [&[u16]; 8] = [
        &[],
        &[],
        &[],
        &[0x1000, 0x1010, 0x1039],
        &[0x1000, 0x1004, 0x103A, 0x1039],
        &[0x1018, 0x1010, 0x103A, 0x1005, 0x103A],
        &[0x1018, 0x1010, 0x103A, 0x1005, 0x103A, 0x1019, 0x103A],
        &[0x1025, 0x102E],
    ];
    let ending = random.pick(&endings);
    let length = random.between(WORD_LIMIT - 2, WORD_LIMIT + 2) - ending.len();
    let mut word = row_of_length(random, length).values;
    word.extend(ending);
    match random.below(4) {
        0 => damage(random, &mut word),
        1 => shuffle_runs(random, &mut word),
        _ => {}
    }
    word
}

fn shuffled(random: &mut Random) -> Vec<u16> {
    let mut word = if random.chance(10) { long(random) } else { valid(random) };
    shuffle_runs(random, &mut word);
    word
}

fn damaged(random: &mut Random) -> Vec<u16> {
    let mut word = if random.chance(10) { long(random) } else { valid(random) };
    for _ in 0..random.pick(&[1, 1, 1, 2, 3]) {
        damage(random, &mut word);
    }
    word
}

/// Deletes, replaces, doubles or inserts a value, or swaps it with its neighbour.
pub fn damage(random: &mut Random, word: &mut Vec<u16>) {
    let value = any_admitted(random);
    if word.is_empty() {
        return word.push(value);
    }
    let place = random.below(word.len());
    match random.below(6) {
        0 => drop(word.remove(place)),
        1 => word.insert(place, word[place]),
        2 => word.insert(random.below(word.len() + 1), value),
        3 if place + 1 < word.len() => word.swap(place, place + 1),
        _ => word[place] = value,
    }
}

/// An admitted value, marks and the stacker more often than letters.
fn any_admitted(random: &mut Random) -> u16 {
    if random.chance(50) {
        random.pick(&ADMITTED)
    } else {
        random.pick(&[
            0x102B, 0x102C, 0x102D, 0x102E, 0x102F, 0x1030, 0x1031, 0x1032, 0x1036, 0x1037, 0x1038,
            0x1039, 0x103A, 0x103B, 0x103C, 0x103D, 0x103E, 0x103F, 0x1004, 0x101E, 0x1021, 0x1025,
            0x104E,
        ])
    }
}

/// The first values of a word, often cut just behind a stacker.
pub fn beginning(random: &mut Random) -> Vec<u16> {
    let mut word = valid(random);
    let behind_stacker = word.iter().rposition(|&value| value == 0x1039).map(|place| place + 1);
    let length = match behind_stacker {
        Some(length) if random.chance(60) => length,
        _ => random.below(word.len() + 1),
    };
    word.truncate(length);
    word
}

fn doubled(random: &mut Random) -> Vec<u16> {
    let word = if random.chance(20) { long(random) } else { valid(random) };
    [word.clone(), word].concat()
}

/// A word with 1025 before what changes it, or before what only comes near.
fn letter_u(random: &mut Random) -> Vec<u16> {
    let mut word = if random.chance(50) { valid(random) } else { Vec::new() };
    word.extend(random.pick(&WITH_LETTER_U));
    if random.chance(30) {
        word.push(any_admitted(random));
    }
    if random.chance(40) {
        word.extend(valid(random));
    }
    if random.chance(40) {
        shuffle_runs(random, &mut word);
    }
    word
}

/// A head that takes no medial and no vowel mark, with what a syllable can have behind it, which
/// it may or may not carry; sometimes under a final that asks for a letter.
fn markless(random: &mut Random) -> Vec<u16> {
    let asking: [&[u16]; 2] = [&[0x1000, 0x1000, 0x1039], &[0x1000, 0x1004, 0x103A, 0x1039]];
    let mut word = match random.below(10) {
        0 => random.pick(&asking).to_vec(),
        1..5 => valid(random),
        _ => Vec::new(),
    };
    let of_class = |class| ADMITTED.iter().copied().filter(move |&it| class_of(it) == Some(class));
    let class = random.pick(&[
        Class::IndependentVowel,
        Class::IndependentVowel,
        Class::Sign,
        Class::Sign,
        Class::Digit,
        Class::Stop,
    ]);
    word.push(random.pick(&of_class(class).collect::<Vec<u16>>()));
    let behind = [
        (Piece::MedialGroup, 15),
        (Piece::Vowel, 15),
        (Piece::Final, 70),
        (Piece::SecondFinal, 30),
        (Piece::Tone, 50),
    ];
    for (piece, percent) in behind {
        if random.chance(percent) {
            word.extend(any_writing(random, piece));
        }
    }
    match random.below(4) {
        0 => word.push(0x103F),
        1 => word.extend(valid(random)),
        2 => shuffle_runs(random, &mut word),
        _ => {}
    }
    word
}

fn any_writing(random: &mut Random, piece: Piece) -> &'static [u16] {
    let all: Vec<_> = writings(piece).collect();
    random.pick(&all).values()
}

/// Writings of pieces in any order.
fn loose_pieces(random: &mut Random) -> Vec<u16> {
    let mut word = Vec::new();
    for _ in 0..random.between(1, 8) {
        let piece = random.pick(&Piece::ALL);
        word.extend(any_writing(random, piece));
    }
    word
}

fn admitted(random: &mut Random) -> Vec<u16> {
    (0..random.below(13)).map(|_| any_admitted(random)).collect()
}

fn foreign(random: &mut Random) -> Vec<u16> {
    let mut word = if random.chance(50) { valid(random) } else { damaged(random) };
    for _ in 0..random.pick(&[1, 1, 2]) {
        let value = match random.below(3) {
            0 => random.pick(&[0x1022, 0x1028, 0x1033, 0x1034, 0x1035, 0x1050, 0x0FFF]),
            1 => random.between(0x1050, 0x109F) as u16,
            _ => random.below(0x1_0000) as u16,
        };
        word.insert(random.below(word.len() + 1), value);
    }
    word
}

fn any_values(random: &mut Random) -> Vec<u16> {
    (0..random.below(20)).map(|_| random.below(0x1_0000) as u16).collect()
}

/// More values than a word has: a few, as many again, so many that their number has the last byte of
/// an empty word or of the longest, or far more.
pub fn overlong(random: &mut Random) -> Vec<u16> {
    let few = [WORD_LIMIT + 1, WORD_LIMIT + 2];
    let again = [2 * WORD_LIMIT - 1, 2 * WORD_LIMIT];
    let length = random.pick(&[&few[..], &again, &[256, 256 + WORD_LIMIT, 1_000]].concat());
    (0..length).map(|_| any_admitted(random)).collect()
}
