//! Lines with labels of every kind, and with what is refused beside them.

use super::encode;
use crate::limits::{LABEL_LIMIT, WORD_LIMIT};

/// The examples of document 02 and of what is decided beside it: digits alone and beside
/// others, stops and signs, letters that are replaced, and what is refused before them.
const WORDS_TO_TRY: [&[u16]; 50] = [
    &[],
    &[0x1040],
    &[0x1047],
    &[0x1040, 0x1047],
    &[0x1000, 0x1040],
    &[0x1000, 0x1047],
    &[0x1040, 0x1000],
    &[0x1047, 0x1000],
    &[0x1041, 0x1000],
    &[0x1000, 0x1041, 0x1040],
    &[0x1040, 0x1041, 0x1000],
    &[0x1000, 0x1041, 0x1040, 0x1041, 0x1000],
    &[0x1000, 0x1041, 0x1040, 0x1000],
    &[0x1000, 0x102C, 0x1040],
    &[0x1000, 0x1014, 0x103A, 0x1047],
    &[0x1000, 0x1040, 0x104B],
    &[0x104A],
    &[0x1000, 0x104B],
    &[0x104C, 0x1000],
    &[0x1000, 0x104D],
    &[0x1000, 0x104F],
    &[0x104E],
    &[0x104E, 0x1004, 0x103A],
    &[0x1000, 0x104E, 0x1004, 0x103A, 0x1038],
    &[0x1040, 0x104A],
    &[0x1025],
    &[0x1009],
    &[0x1025, 0x1000, 0x103A],
    &[0x1009, 0x1000, 0x103A],
    &[0x1000, 0x1025, 0x103A],
    &[0x1000, 0x1009, 0x103A],
    &[0x1025, 0x102E],
    &[0x1026],
    &[0x1029],
    &[0x101E, 0x103C],
    &[0x1029, 0x1014, 0x103A, 0x1038],
    &[0x101E, 0x103C, 0x1014, 0x103A, 0x1038],
    &[0x101D, 0x101B],
    &[0x1000, 0x102C, 0x1031],
    // Stored with one value less, or in another order, before what is refused.
    &[0x1025, 0x102E, 0x104A],
    &[0x1025, 0x102E, 0x1040],
    &[0x1025, 0x102E, 0x1041, 0x1040, 0x1000],
    &[0x1025, 0x1038, 0x102E, 0x104F],
    // Refused before it is asked whether they are labels.
    &[0x104A, 0x1022],
    &[0x1040, 0x1039],
    &[0x104B, 0x103A],
    &[0x1000, 0x1000, 0x1039],
    &[0x1000, 0x1040, 0x1000, 0x1000, 0x1039],
    &[0x1000, 0x1039, 0x1040],
    &[0x1040, 0x103F],
];

/// Lines that are no row of threes.
const FAULTY_LINES: [&[u8]; 7] = [
    b"a",
    b"\xE1",
    b"\xE1\x80\x80\xFF",
    b"\xC3\xA9",
    b"\xE1\x82\x80",
    b"\xE1\x81\x80\r",
    b"\xE1\x81\x8A\xE1\x80",
];

/// The word with the longest skeleton: it has as many values and syllables as a label may
/// have, and each syllable but the last begins with 1029.
pub fn with_longest_skeleton() -> Vec<u16> {
    let first = [0x1029, 0x1014, 0x103A, 0x1005, 0x103A, 0x1038].repeat(LABEL_LIMIT - 1);
    let last = [0x1000, 0x103B, 0x1031, 0x102C, 0x103A, 0x1014, 0x103A, 0x1005, 0x103A, 0x1038];
    [first, last.to_vec()].concat()
}

/// The words above, words with as many syllables or values as may be or one more, and lines
/// without a word. The first and the last line are empty.
pub fn examples() -> impl Iterator<Item = Vec<u8>> {
    let long = [
        vec![0x1000; LABEL_LIMIT],
        vec![0x1000; LABEL_LIMIT + 1],
        [&[0x1000; LABEL_LIMIT][..], &[0x104A]].concat(),
        [&[0x1000; LABEL_LIMIT][..], &[0x1040]].concat(),
        vec![0x1040; LABEL_LIMIT],
        vec![0x1047; LABEL_LIMIT + 1],
        with_longest_skeleton(),
        vec![0x1000; WORD_LIMIT],
        vec![0x104A; WORD_LIMIT],
        vec![0x1000; WORD_LIMIT + 1],
    ];
    let words = WORDS_TO_TRY.iter().map(|word| word.to_vec()).chain(long);
    let faulty = FAULTY_LINES.iter().map(|line| line.to_vec());
    words.map(|word| encode(&word)).chain(faulty).chain([Vec::new()])
}
