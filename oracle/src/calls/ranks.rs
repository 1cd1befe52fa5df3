//! Ranks of every number and beyond, among words that are hard to tell apart.

use super::play::Play;
use super::words::{short, stock};
use crate::limits::{BOOK_RECORD_HEAD, WORD_LIMIT};
use crate::random::Random;

/// Words in word order, of which neighbours have the same weights, begin with one
/// another, or differ in the last weight alone.
const CLOSE: [&[u16]; 34] = [
    &[0x104A],
    &[0x1040],
    &[0x1000],
    &[0x1000, 0x1000],
    &[0x1000, 0x1037],
    &[0x1000, 0x102B],
    &[0x1000, 0x102C],
    &[0x1000, 0x102C, 0x1000],
    &[0x1000, 0x102C, 0x1038],
    &[0x1000, 0x1000, 0x1039, 0x1000],
    &[0x1000, 0x1000, 0x103A, 0x1000],
    &[0x1000, 0x102C, 0x1000, 0x103A],
    &[0x1000, 0x1000, 0x103A, 0x1000, 0x103A],
    &[0x1000, 0x1000, 0x103A, 0x1000, 0x103A, 0x1037],
    &[0x1000, 0x102C, 0x1000, 0x103A, 0x1000, 0x103A],
    &[0x1000, 0x1000, 0x103A, 0x1004, 0x103A],
    &[0x1000, 0x1004, 0x103A, 0x1000],
    &[0x1000, 0x1004, 0x103A, 0x1039, 0x1000],
    &[0x1000, 0x101E, 0x103A, 0x101E],
    &[0x1000, 0x103F],
    &[0x1000, 0x103B],
    &[0x101E],
    &[0x1021],
    &[0x1021, 0x102D],
    &[0x1023],
    &[0x1023, 0x1038],
    &[0x1026],
    &[0x1021, 0x102D, 0x1000, 0x103A],
    &[0x1023, 0x1000, 0x103A],
    &[0x1021, 0x102D, 0x1000, 0x103A, 0x1000, 0x103A],
    &[0x1023, 0x1000, 0x103A, 0x1000, 0x103A],
    &[0x104E],
    &[0x104E, 0x1037],
    &[0x104F],
];

/// Books of close words and of any words, some of them removed.
pub fn ranks(play: &mut Play, random: &mut Random) {
    for round in 0..6 {
        play.new_book(600);
        let mut words: Vec<Vec<u16>> = if round % 2 == 0 {
            CLOSE.map(<[u16]>::to_vec).to_vec()
        } else {
            (0..random.between(1, 20)).map(|_| short(random)).collect()
        };
        random.shuffle(&mut words);
        for word in &words {
            let _ = play.add(word, stock(random));
        }
        for word in &words {
            if random.chance(round * 10) {
                let _ = play.remove(word);
            }
        }
        for rank in 0..words.len() + 2 {
            let _ = play.rank(rank as u32);
        }
        let _ = play.rank(u32::MAX);
        let _ = play.check();
    }
}

/// Long words that differ only at their ends, or in their length.
pub fn deep_ranks(play: &mut Play, random: &mut Random) {
    let ends = CLOSE.iter().filter(|end| end.len() <= 2 && end[0] != 0x1000);
    let front = [0x1000; WORD_LIMIT - 2];
    let mut words: Vec<Vec<u16>> = ends.map(|end| [&front, *end].concat()).collect();
    words.extend([0x102B, 0x102C].map(|mark| [&front[..], &[mark]].concat()));
    words.extend((WORD_LIMIT - 4..=WORD_LIMIT).map(|length| vec![0x1000; length]));
    random.shuffle(&mut words);
    play.new_book((BOOK_RECORD_HEAD + WORD_LIMIT) * words.len());
    for word in &words {
        let _ = play.add(word, stock(random));
    }
    for rank in 0..=words.len() {
        let _ = play.rank(rank as u32);
    }
}

#[cfg(test)]
mod tests {
    use super::*;
    use crate::compare;
    use std::cmp::Ordering;

    #[test]
    fn close_words_are_in_word_order() {
        for pair in CLOSE.windows(2) {
            assert_eq!(compare(pair[0], pair[1]), Ok(Ordering::Less), "{pair:04X?}");
        }
    }
}
