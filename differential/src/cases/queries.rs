//! Beginnings of words: queries, and words that continue what is in a book.

use super::shelf::Shelf;
use super::words::{self, valid};
use oracle::limits::{SPELLED_LIMIT, WORD_LIMIT};
use oracle::lists::shuffle_runs;
use oracle::random::Random;

/// A query: the first syllables of a word of the book, perhaps typed otherwise, or any word.
pub fn query(random: &mut Random, shelf: &Shelf) -> Vec<u16> {
    let Some(word) = known(random, shelf) else { return words::word(random) };
    let mut query = match random.below(40) {
        0 => return Vec::new(),
        1 => return words::overlong(random),
        2..6 => return words::word(random),
        6 => word[..random.below(word.len() + 1)].to_vec(),
        7..10 => word,
        _ => first_syllables(random, &word),
    };
    if random.chance(40) && oracle::read(&query).is_ok() {
        query = of_equal_weights(random, &query);
    }
    match random.below(10) {
        0 => words::damage(random, &mut query),
        1 => words::change_finals(random, &mut query),
        2..4 => shuffle_runs(random, &mut query),
        _ => {}
    }
    query
}

/// A word that begins as one of the book does, or any valid word.
pub fn continuing(random: &mut Random, shelf: &Shelf) -> Vec<u16> {
    let Some(word) = known(random, shelf) else { return valid(random) };
    match random.below(6) {
        0 => of_equal_weights(random, &word),
        1 => first_syllables(random, &word),
        2 => [word, valid(random)].concat(),
        _ => [first_syllables(random, &word), valid(random)].concat(),
    }
}

/// A word of a record, live or not; often one of the first, so that many begin as it does.
fn known(random: &mut Random, shelf: &Shelf) -> Option<Vec<u16>> {
    let words = &shelf.words;
    let among = if random.chance(50) { words.len().min(2) } else { words.len() };
    (!words.is_empty()).then(|| words[random.below(among)].clone())
}

/// Some of a row's syllables, from the first on. A last final that asks for the next syllable is
/// written plain.
fn first_syllables(random: &mut Random, word: &[u16]) -> Vec<u16> {
    let reading = oracle::read(word).expect("a stored word");
    let most = random.between(1, reading.syllables().len());
    let next = reading.syllables().get(random.between(1, most));
    let (first, rest) = word.split_at(next.map_or(word.len(), |next| next.start));
    match (first, rest) {
        (_, [0x103F, ..]) => [first, &[0x101E, 0x103A]].concat(),
        ([kinzi @ .., 0x1039], _) if kinzi.ends_with(&[0x103A]) => kinzi.to_vec(),
        ([stacked @ .., 0x1039], _) => [stacked, &[0x103A]].concat(),
        _ => first.to_vec(),
    }
}

/// A row of the same weights: finals in other forms, AA for tall AA, and independent vowels written
/// as marks of 1021.
fn of_equal_weights(random: &mut Random, word: &[u16]) -> Vec<u16> {
    let (mut spelled, mut starts) = ([0; SPELLED_LIMIT], [0; WORD_LIMIT]);
    let lengths = oracle::spell_out(word, &mut spelled, &mut starts).expect("a stored word");
    let starts = &starts[..lengths.starts];
    let mut equal = Vec::new();
    for (place, &value) in spelled[..lengths.values].iter().enumerate() {
        match value {
            0x1000..=0x1020 if starts.contains(&place) && !has_two_finals(&equal) => {
                push_head(random, &mut equal, value);
            }
            0x102B | 0x102C => equal.push(random.pick(&[0x102B, 0x102C])),
            0x1023..=0x102A if random.chance(50) => {
                equal.push(0x1021);
                equal.extend(marks_of(value));
            }
            _ => equal.push(value),
        }
    }
    equal
}

/// Whether the last syllable of a row has two finals, of which neither can stand on a letter.
fn has_two_finals(row: &[u16]) -> bool {
    let last = oracle::read(row).ok().and_then(|read| read.syllables().last().copied());
    last.is_some_and(|last| last.record[5] > 0)
}

/// Puts a letter behind a row; a plain final before it may become one that stands on it.
fn push_head(random: &mut Random, row: &mut Vec<u16>, letter: u16) {
    match row[..] {
        [.., 0x101E, 0x103A] if letter == 0x101E && random.chance(50) => {
            row.truncate(row.len() - 2);
            row.push(0x103F);
            return;
        }
        [.., 0x1004, 0x103A] if random.chance(50) => row.push(0x1039),
        [.., 0x1000..=0x1003 | 0x1005..=0x1020, ref mut killer @ 0x103A] if random.chance(50) => {
            *killer = 0x1039;
        }
        _ => {}
    }
    row.push(letter);
}

/// The vowel marks that weigh as an independent vowel.
fn marks_of(letter: u16) -> &'static [u16] {
    match letter {
        0x1023 => &[0x102D],
        0x1024 => &[0x102E],
        0x1025 => &[0x102F],
        0x1026 => &[0x1030],
        0x1027 => &[0x1031],
        0x1029 => &[0x1031, 0x102C],
        _ => &[0x1031, 0x102C, 0x103A],
    }
}
