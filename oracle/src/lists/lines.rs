//! Lines by their bytes: faulty ones, ones near the limit, and the examples.

use super::changes::{any_foreign, damage, long, shuffle_runs, valid};
use super::encode;
use super::picked_rows::row_of_length;
use crate::letters::{KILLER, LETTER_U, MARK_II, NGA, STACKER};
use crate::limits::{LINE_LIMIT, WORD_LIMIT};
use crate::random::Random;

/// A byte of any value but that which ends a line.
fn any_byte(random: &mut Random) -> u8 {
    match random.below(256) as u8 {
        b'\n' => b'\r',
        byte => byte,
    }
}

/// Bytes that are part of a valid three, or just not.
const NEAR_BYTES: [u8; 12] =
    [0xE1, 0xE1, 0xE1, 0x80, 0x80, 0x81, 0x82, 0xBF, 0xC0, 0x7F, 0x00, 0x0D];

/// Characters of UTF-8 that are no Myanmar letters, or whose bytes are too many.
const OTHER_CHARACTERS: [&[u8]; 12] = [
    b"\0",
    b"\r",
    b" ",
    b"a",
    b"\x7F",
    "\u{E9}".as_bytes(),
    "\u{FFF}".as_bytes(),
    "\u{1080}".as_bytes(),
    "\u{10FF}".as_bytes(),
    "\u{200B}".as_bytes(),
    "\u{FEFF}".as_bytes(),
    "\u{1F600}".as_bytes(),
];

/// A line that is mostly no row of well-formed threes.
pub fn faulty(random: &mut Random) -> Vec<u8> {
    let mut line = encode(&valid(random));
    let place = random.below(line.len());
    match random.below(8) {
        0 => line.truncate(line.len() - random.between(1, 2)),
        1 => drop(line.remove(place)),
        2 => line[place] = any_byte(random),
        3 => line[place] = random.pick(&NEAR_BYTES),
        4 => insert(&mut line, place, random.pick(&OTHER_CHARACTERS)),
        5 => insert(&mut line, place / 3 * 3, random.pick(&OTHER_CHARACTERS)),
        6 => {
            let end = line.len();
            insert(
                &mut line,
                end,
                random.pick(&[b"\r".as_slice(), b"\0", b" ", b"\x80", b"\xE1\x80"]),
            );
        }
        _ => {
            let length = random.between(1, 12);
            line = (0..length).map(|_| random.pick(&NEAR_BYTES)).collect();
        }
    }
    line
}

fn insert(line: &mut Vec<u8>, place: usize, bytes: &[u8]) {
    line.splice(place..place, bytes.iter().copied());
}

/// A line of about [`LINE_LIMIT`] bytes or a word of about [`WORD_LIMIT`] values.
pub fn near_the_limit(random: &mut Random) -> Vec<u8> {
    match random.below(5) {
        0..3 => encode(&word_near_the_limit(random)),
        3 => bytes_near_the_limit(random),
        _ => {
            let mut line = encode(&word_near_the_limit(random));
            let place = random.below(line.len());
            line[place] = any_byte(random);
            line
        }
    }
}

fn word_near_the_limit(random: &mut Random) -> Vec<u16> {
    let row = |random: &mut Random, length| row_of_length(random, length).values;
    let ended_by = |mut word: Vec<u16>, ending: &[u16]| {
        word.extend_from_slice(ending);
        word
    };
    match random.below(13) {
        0 => row(random, WORD_LIMIT),
        1 => row(random, WORD_LIMIT - 1),
        2 => row(random, WORD_LIMIT + 1),
        3 => long(random),
        4 => with_foreign(random, WORD_LIMIT - 1),
        5 => with_foreign(random, WORD_LIMIT),
        6 => ended_by(row(random, WORD_LIMIT - 3), &[0x1000, 0x1010, STACKER]),
        7 => ended_by(row(random, WORD_LIMIT - 4), &[0x1000, NGA, KILLER, STACKER]),
        8 => {
            // Stored with one value less, a word that is too long by one is refused too.
            let length = random.between(WORD_LIMIT - 3, WORD_LIMIT - 1);
            ended_by(row(random, length), &[LETTER_U, MARK_II])
        }
        9 => {
            let length = random.between(WORD_LIMIT - 1, WORD_LIMIT);
            let mut word = row(random, length);
            damage(random, &mut word);
            word
        }
        10 => {
            // Two finals that end the longest word, or pass it.
            let length = random.between(WORD_LIMIT - 6, WORD_LIMIT - 4);
            ended_by(row(random, length), &[0x1018, 0x1010, KILLER, 0x1005, KILLER])
        }
        11 => {
            // A third final, whose killer is the last value.
            let finals = [0x1018, 0x1010, KILLER, 0x1005, KILLER, 0x1019, KILLER];
            ended_by(row(random, WORD_LIMIT - finals.len()), &finals)
        }
        _ => {
            let mut word = row(random, WORD_LIMIT);
            shuffle_runs(random, &mut word);
            word
        }
    }
}

/// A row with a foreign value put into it.
fn with_foreign(random: &mut Random, length: usize) -> Vec<u16> {
    let mut word = row_of_length(random, length).values;
    let place = random.below(length + 1);
    let value = any_foreign(random);
    word.insert(place, value);
    word
}

fn bytes_near_the_limit(random: &mut Random) -> Vec<u8> {
    let length = random.between(LINE_LIMIT - 4, LINE_LIMIT + 4);
    match random.below(5) {
        0 => vec![b'a'; length],
        1 => (0..length).map(|_| any_byte(random)).collect(),
        2 => {
            let mut line = encode(&[0x1000; WORD_LIMIT + 2]);
            line.truncate(length);
            line
        }
        3 => {
            let mut line = encode(&row_of_length(random, WORD_LIMIT - 1).values);
            line.extend(random.pick(&[
                b"\xE1".as_slice(),
                b"\xE1\x80",
                b"\r",
                b"\xE1\x80\x80\r",
                b"\xE1\x80\x80\xE1",
                b"\xE1\x82\x80",
                b"\xE1\x80\x22",
            ]));
            line
        }
        _ if random.chance(5) => encode(&[0x1000; 1_000]),
        _ => encode(&vec![0x1000; random.between(WORD_LIMIT - 1, WORD_LIMIT + 2)]),
    }
}

/// The words of document 01 under "Words to try" and "Wrong turns", and a word for each
/// promise of its other headings that a single word can show.
const WORDS_TO_TRY: [&[u16]; 33] = [
    &[],
    &[0x1000],
    &[0x101E, 0x1019, 0x102E, 0x1038],
    &[0x1010, 0x1000, 0x1039, 0x1000, 0x101E, 0x102D, 0x102F, 0x101C, 0x103A],
    &[0x1021, 0x1004, 0x103A, 0x1039, 0x1002, 0x101C, 0x1014, 0x103A],
    &[0x1015, 0x103C, 0x103F, 0x1014, 0x102C],
    &[0x1000, 0x1039],
    &[0x1000, 0x1000, 0x1039],
    &[0x1000, 0x1004, 0x1039, 0x1000],
    &[0x103F],
    &[0x1000, 0x103B, 0x103C],
    &[0x1000, 0x102C, 0x103A],
    &[0x1000, 0x1031, 0x102C, 0x103A],
    &[0x1000, 0x1014, 0x1037, 0x103A],
    &[0x1025, 0x102E],
    &[0x1000, 0x1000, 0x103A],
    &[0x1000, 0x102C],
    &[0x104F],
    &[0x1000, 0x1000, 0x1039, 0x103B],
    &[0x1000, 0x102C, 0x103A, 0x1031],
    &[0x1025, 0x1038, 0x102E],
    &[0x1025, 0x1031, 0x102E],
    &[0x1000, 0x1025, 0x103A],
    &[0x1000, 0x1025, 0x1039, 0x1000],
    &[0x1004, 0x103A, 0x1039, 0x1000],
    &[0x1000, 0x1004, 0x103A, 0x1039],
    &[0x1000, 0x1000, 0x1039, 0x1021],
    &[0x1000, 0x1000, 0x1039, 0x103F],
    &[0x1000, 0x1000, 0x1039, 0x1000, 0x103A],
    &[0x1000, 0x103F, 0x103F],
    &[0x1000, 0x1037, 0x103F],
    &[0x1040, 0x103F],
    &[0x1039, 0x1022],
];

/// Words of document 02: independent letters with finals and tones, and what is refused
/// beside them.
const INDEPENDENT_LETTERS: [&[u16]; 20] = [
    &[0x1025, 0x1000, 0x1039, 0x1000],
    &[0x104E, 0x1004, 0x103A, 0x1038],
    &[0x1029, 0x1038],
    &[0x1023, 0x1004, 0x103A, 0x1039, 0x1002],
    &[0x1023, 0x103F],
    &[0x1023, 0x1038, 0x103F],
    &[0x104C, 0x1000, 0x103A],
    &[0x104C, 0x1038],
    &[0x1023, 0x1000, 0x1039],
    &[0x1023, 0x1004, 0x103A, 0x1039],
    &[0x1023, 0x1004, 0x1039, 0x1000],
    &[0x1000, 0x1000, 0x1039, 0x1025],
    &[0x1000, 0x1000, 0x1039, 0x104E],
    &[0x1023, 0x103B],
    &[0x1023, 0x102D],
    &[0x104E, 0x102C],
    &[0x1025, 0x103A],
    &[0x1025, 0x1025, 0x103A],
    &[0x1023, 0x1025, 0x1039, 0x1005],
    &[0x1021, 0x102F, 0x1000, 0x1039, 0x1000],
];

/// Words of document 02: two finals, and what is refused beside them.
const TWO_FINALS: [&[u16]; 14] = [
    &[0x1018, 0x1010, 0x103A, 0x1005, 0x103A],
    &[0x1018, 0x1010, 0x103A, 0x1005, 0x103A, 0x1038],
    &[0x1018, 0x1010, 0x103A, 0x1005, 0x1037, 0x103A],
    &[0x1000, 0x1000, 0x103A, 0x1000, 0x103A],
    &[0x1025, 0x1000, 0x103A, 0x1005, 0x103A],
    &[0x104E, 0x1000, 0x103A, 0x1005, 0x103A, 0x1038],
    &[0x1000, 0x1025, 0x103A, 0x1025, 0x103A],
    &[0x1000, 0x1000, 0x103A, 0x1005, 0x103A, 0x1019],
    &[0x1000, 0x1000, 0x103A, 0x1005, 0x103A, 0x1019, 0x103A],
    &[0x1000, 0x1000, 0x103A, 0x1004, 0x103A, 0x1039],
    &[0x1000, 0x1000, 0x103A, 0x1005, 0x1039],
    &[0x1000, 0x1010, 0x103A, 0x1037, 0x1005, 0x103A],
    &[0x1000, 0x1010, 0x1037, 0x103A, 0x1005, 0x103A],
    &[0x104C, 0x1000, 0x103A, 0x1005, 0x103A],
];

/// The words of the documents, and words as long as they may be or one longer.
pub fn examples() -> impl Iterator<Item = Vec<u8>> {
    let words = [&WORDS_TO_TRY[..], &INDEPENDENT_LETTERS, &TWO_FINALS].concat();
    let short = words.into_iter().map(encode);
    let long = [vec![0x1000; WORD_LIMIT], vec![0x1000; WORD_LIMIT + 1]];
    short.chain(long.into_iter().map(|word| encode(&word)))
}
