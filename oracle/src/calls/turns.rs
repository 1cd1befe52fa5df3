//! Add and remove in turn, with words in every spelling.

use super::play::Play;
use super::words::{respelled, short, stock, STOCKS};
use crate::limits::BOOK_RECORD_HEAD;
use crate::random::Random;

/// A few words that come and go: in books too short for all of them, in books that add
/// tidies again and again, and in one with room for every record.
pub fn turns(play: &mut Play, random: &mut Random) {
    for size in [30, 45, 60, 90, 150, 1000] {
        play.new_book(size);
        let words: Vec<Vec<u16>> = (0..random.between(3, 9)).map(|_| short(random)).collect();
        for _ in 0..50 {
            let word = &words[random.below(words.len())];
            let word = respelled(random, word);
            let _ = match random.below(10) {
                0..4 => play.add(&word, stock(random)),
                4..7 => play.remove(&word),
                7 => play.rank(random.below(words.len() + 1) as u32),
                8 => play.find(&word),
                _ => play.check(),
            };
        }
    }
}

/// One word in many spellings: it is there once.
pub fn spellings(play: &mut Play, random: &mut Random) {
    let words: [&[u16]; 12] = [
        &[0x1000, 0x1014, 0x103A, 0x1037],
        &[0x1026],
        &[0x1026, 0x1038],
        &[0x1025, 0x1009, 0x103A],
        &[0x1000, 0x1009, 0x103A],
        &[0x1018, 0x1010, 0x103A, 0x1005, 0x103A, 0x1037],
        &[0x1000, 0x102D, 0x102F, 0x1009, 0x103A, 0x1009, 0x103A, 0x1038],
        &[0x1015, 0x1009, 0x1039, 0x1005, 0x1019],
        &[0x1000, 0x103B, 0x103D, 0x103E, 0x1031, 0x102C, 0x103A, 0x1038],
        &[0x101E, 0x102D, 0x102F, 0x101C, 0x103A],
        &[0x1021, 0x1004, 0x103A, 0x1039, 0x1002, 0x101C, 0x1014, 0x103A],
        &[0x1015, 0x103C, 0x103F, 0x1014, 0x102C],
    ];
    for word in words {
        play.new_book(BOOK_RECORD_HEAD + word.len());
        let _ = play.add(&respelled(random, word), stock(random));
        for _ in 0..4 {
            let _ = play.find(&respelled(random, word));
            let _ = play.add(&respelled(random, word), stock(random));
        }
        let _ = play.remove(&respelled(random, word));
        let _ = play.remove(&respelled(random, word));
        let _ = play.find(word);
        let _ = play.check();
    }
}

/// A word with its four marks in each of their 24 orders.
pub fn mark_orders(play: &mut Play, random: &mut Random) {
    play.new_book(40);
    let _ = play.add(&[0x1000, 0x102C, 0x1031, 0x103D, 0x103B], stock(random));
    let marks = [0x103B, 0x103D, 0x1031, 0x102C];
    for order in 0..24 {
        let mut left = marks.to_vec();
        let mut word = vec![0x1000];
        for place in [order / 6, order / 2 % 3, order % 2, 0] {
            word.push(left.remove(place));
        }
        let _ = play.find(&word);
    }
}

/// Stock numbers at their limits, written and found again.
pub fn stock_numbers(play: &mut Play, _: &mut Random) {
    play.new_book(BOOKED);
    for (place, stock) in STOCKS.into_iter().enumerate() {
        let word = [0x1000 + place as u16, 0x102C];
        let _ = play.add(&word, stock);
        let _ = play.find(&word);
    }
    for place in 0..STOCKS.len() {
        let word = [0x1000 + place as u16, 0x102C];
        let _ = play.find(&word);
        let _ = play.rank(place as u32);
    }
    let _ = play.check();
}

/// Room for each stock number with a word of two values.
const BOOKED: usize = (BOOK_RECORD_HEAD + 2) * STOCKS.len();
