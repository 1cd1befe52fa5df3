//! Calls on labels: on words that are labels or nearly so, and on words that look like them.

use super::{near, needed, words};
use crate::call::{Call, Maker};
use crate::case::Case;
use oracle::limits::{LABEL_LIMIT, WORD_LIMIT};
use oracle::lists::{exchanged, likely_label, long_skeleton};
use oracle::random::Random;
use std::mem::swap;
use std::sync::LazyLock;

/// The calls, each as often as it is picked.
static CALLS: LazyLock<Vec<Call>> = LazyLock::new(|| Call::made_by(Maker::Labels));

/// A call on labels.
pub fn case(random: &mut Random) -> Case {
    let call = random.pick(&CALLS);
    let mut case = Case::of_word(call, word(random));
    if call.takes_two_words() {
        case.second = neighbour(random, &case.word);
        if random.chance(50) {
            swap(&mut case.word, &mut case.second);
        }
    }
    if !call.row().outputs.is_empty() {
        case.numbers[0] = near(random, needed(&case)[0]);
    }
    case
}

/// A word of any kind, most often one that is a label or nearly so.
fn word(random: &mut Random) -> Vec<u16> {
    match random.below(20) {
        0..4 => words::word(random),
        4 => words::beginning(random),
        5..7 => long_skeleton(random),
        7..9 => repeated(random),
        9..11 => {
            let word = likely_label(random);
            damaged(random, word)
        }
        _ => likely_label(random),
    }
}

/// A word that looks like another or nearly so, one that is near it in the word order, or any word.
fn neighbour(random: &mut Random, first: &[u16]) -> Vec<u16> {
    let second = exchanged(random, first);
    match random.below(10) {
        0..6 => second,
        6 => damaged(random, second),
        7 => words::neighbour(random, first),
        _ => word(random),
    }
}

/// One value as often as a label or a word can have it, or not quite so, or once more.
fn repeated(random: &mut Random) -> Vec<u16> {
    let value = random.pick(&[0x1000, 0x1025, 0x1029, 0x1040, 0x1041, 0x1047]);
    let most = random.pick(&[LABEL_LIMIT, WORD_LIMIT]);
    vec![value; random.between(most - 1, most + 1)]
}

fn damaged(random: &mut Random, mut word: Vec<u16>) -> Vec<u16> {
    words::damage(random, &mut word);
    word
}
