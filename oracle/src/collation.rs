//! Document 01, "Weights": keys and comparison.

use crate::letters::{class_of, Class};
use crate::limits::{KEY_SIZE, WEIGHTS};
use crate::reading::Reading;
use crate::refusal::Refusal;
use crate::storage::store;
use crate::syllable::Record;
use std::cmp::Ordering;

/// Weights of a syllable, "compared in this order: head, medial, final, vowel, tone."
/// Document 02: "A key gains a sixth weight, which stands and is compared straight after
/// the first final".
pub type Weights = [u8; WEIGHTS];

/// A key of [`KEY_SIZE`] bytes, of which [`WEIGHTS`] a syllable are used. "The rest are
/// zero, and the syllable count comes with it."
#[derive(Clone, Copy, Debug, PartialEq, Eq)]
pub struct Key {
    bytes: [u8; KEY_SIZE],
    count: usize,
}

impl Key {
    /// "a key, its count or a record handed back with [a refusal] is all zeros."
    pub const ZERO: Key = Key { bytes: [0; KEY_SIZE], count: 0 };

    /// The number of syllables.
    pub fn count(&self) -> usize {
        self.count
    }

    /// All bytes.
    pub fn bytes(&self) -> &[u8; KEY_SIZE] {
        &self.bytes
    }

    /// The weights of each syllable.
    pub fn row(&self) -> &[Weights] {
        &self.bytes.as_chunks().0[..self.count]
    }

    /// The key of a word that was read.
    pub fn of(reading: &Reading) -> Key {
        let mut key = Key::ZERO;
        for (place, syllable) in key.bytes.as_chunks_mut().0.iter_mut().zip(reading.syllables()) {
            *place = weights(&syllable.record);
        }
        key.count = reading.syllables().len();
        key
    }
}

/// The key of a word, which is normalised first.
pub fn key(word: &[u16]) -> Result<Key, Refusal> {
    Ok(Key::of(&store(word)?.reading))
}

/// The weights of a syllable. A record has all but the weights of its head, and
/// has them in another order. Document 02: "The weights are those of the head plus
/// final and tone", so an I with a final keeps the vowel weight of its head.
fn weights(record: &Record) -> Weights {
    let [head, medial, vowel, _, first_final, second_final, _, tone] = *record;
    let value = 0x1000 + u16::from(head);
    match independent_vowel_weight(value) {
        Some(vowel) => [46, medial, first_final, second_final, vowel, tone],
        None => [head_weight(value), medial, first_final, second_final, vowel, tone],
    }
}

/// "Head: 104A 1, 104B 2, digits 3 to 12, C 13 to 46, S 47 to 50."
fn head_weight(value: u16) -> u8 {
    let weight = match class_of(value) {
        Some(Class::Stop) => value - 0x104A + 1,
        Some(Class::Digit) => value - 0x1040 + 3,
        Some(Class::Consonant) => value - 0x1000 + 13,
        Some(Class::Sign) => value - 0x104C + 47,
        _ => unreachable!("no syllable has the head {value:04X}"),
    };
    weight as u8
}

/// "An I has head 46 and a vowel weight: 1023 2, 1024 3, 1025 4, 1026 5, 1027 6,
/// 1029 8, 102A 9."
fn independent_vowel_weight(value: u16) -> Option<u8> {
    Some(match value {
        0x1023 => 2,
        0x1024 => 3,
        0x1025 => 4,
        0x1026 => 5,
        0x1027 => 6,
        0x1029 => 8,
        0x102A => 9,
        _ => return None,
    })
}

/// Document 02: "its row of weights begins with the query's row". Whole syllables are
/// weighed in turn, and the rest of the longer word is not looked at.
pub fn begins_with(word: &Reading, query: &Reading) -> bool {
    let mut syllables = word.syllables().iter();
    query.syllables().iter().all(|asked| {
        syllables.next().is_some_and(|found| weights(&found.record) == weights(&asked.record))
    })
}

/// One of two words.
#[derive(Clone, Copy, Debug, PartialEq, Eq)]
pub enum Which {
    /// The word handed in first.
    First,
    /// The word handed in second.
    Second,
}

/// What is made of each of two words. "the first is tested whole, and the answer says
/// which".
pub fn of_both<T>(
    first: &[u16],
    second: &[u16],
    make: fn(&[u16]) -> Result<T, Refusal>,
) -> Result<(T, T), (Which, Refusal)> {
    let first = make(first).map_err(|refusal| (Which::First, refusal))?;
    let second = make(second).map_err(|refusal| (Which::Second, refusal))?;
    Ok((first, second))
}

/// "Words compare by their rows of weights, a row before every longer one that
/// begins with it; equal rows compare by code values in storage order."
pub fn compare(first: &[u16], second: &[u16]) -> Result<Ordering, (Which, Refusal)> {
    let (first, second) = of_both(first, second, store)?;
    let (first_key, second_key) = (Key::of(&first.reading), Key::of(&second.reading));
    // Slices compare as asked: item by item, and a beginning before the longer.
    let by_weights = first_key.row().cmp(second_key.row());
    Ok(by_weights.then_with(|| first.word.cmp(&second.word)))
}
