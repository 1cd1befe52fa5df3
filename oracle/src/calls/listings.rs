//! Whole books: the order of their live records, and the record at every kind of start.

use super::play::Play;
use super::words::{of_length, short, stock};
use crate::limits::WORD_LIMIT;
use crate::random::Random;

/// Books of some words, some of them removed: the order with every room that is near
/// enough, and every byte asked for as a start.
pub fn listings(play: &mut Play, random: &mut Random) {
    for round in 0..3 {
        let size = random.between(40, 120);
        play.new_book(size);
        let _ = play.order(0);
        let mut words: Vec<Vec<u16>> = (0..random.between(1, 9)).map(|_| short(random)).collect();
        words.retain(|word| play.add(word, stock(random)).is_ok());
        for word in &words {
            if random.chance(round * 20) {
                let _ = play.remove(word);
            }
        }
        for room in 0..=words.len() + 1 {
            let _ = play.order(room);
        }
        for start in 0..size + 2 {
            let _ = play.word(start, WORD_LIMIT);
        }
    }
}

/// Words of many lengths, each with room for it and without.
pub fn rooms(play: &mut Play, random: &mut Random) {
    for length in [1, 2, 3, 7, 30, WORD_LIMIT - 1, WORD_LIMIT] {
        let word = of_length(random, length);
        play.new_book(length + 20);
        let _ = play.add(&word, stock(random));
        for room in [0, 1, length - 1, length, length + 1] {
            let _ = play.word(0, room);
            let _ = play.word(1, room);
        }
        let _ = play.remove(&word);
        let _ = play.word(0, length);
        let _ = play.order(1);
    }
}

/// Buffers that are no book.
pub fn no_books(play: &mut Play, random: &mut Random) {
    for _ in 0..10 {
        play.new_book(60);
        for _ in 0..3 {
            let _ = play.add(&short(random), stock(random));
        }
        play.poke(random.below(60), random.pick(&[0x00, 0x01, 0x2D, 0x39, 0x4D, 0x57, 0xFF]));
        let _ = play.order(3);
        let _ = play.word(0, WORD_LIMIT);
        let _ = play.word(0, 0);
    }
}
