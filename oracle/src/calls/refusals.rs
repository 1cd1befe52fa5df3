//! Words that are refused, alone and beside a book that is wrong too.

use super::play::Play;
use super::words::{refused, stock};
use crate::limits::BOOK_LIMIT;
use crate::random::Random;

/// Each refused word on a book with two records.
pub fn refused_words(play: &mut Play, random: &mut Random) {
    play.new_book(64);
    let _ = play.add(&[0x1000], stock(random));
    let _ = play.add(&[0x1001], stock(random));
    for (number, word) in refused() {
        let number_of = |answer: super::Answer| answer.err().map(|refusal| refusal.number);
        assert_eq!(number_of(play.add(&word, stock(random))), Some(number));
        assert_eq!(number_of(play.remove(&word)), Some(number));
        assert_eq!(number_of(play.find(&word)), Some(number));
    }
    let _ = play.check();
}

/// "Tests run in the order 1, 7, 8, 2, 3 or 4, 6, 11, 12, 13, 14, 15, 5".
pub fn order_of_tests(play: &mut Play, random: &mut Random) {
    // The longest words once, on a buffer that is no book.
    for (length, longest) in [(0, 9), (1, 9), (30, usize::MAX), (BOOK_LIMIT + 1, 9)] {
        play.new_book(length);
        if length > 0 {
            play.poke(length / 2, 0x4E);
        }
        for (_, word) in refused().into_iter().filter(|(_, word)| word.len() <= longest) {
            let _ = play.add(&word, stock(random));
            let _ = play.remove(&word);
            let _ = play.find(&word);
        }
        for word in [&[0x1000][..], &[0x1025, 0x102E], &[0x1014, 0x1037, 0x103A]] {
            let _ = play.add(word, stock(random));
            let _ = play.remove(word);
            let _ = play.find(word);
        }
        let _ = play.check();
        let _ = play.rank(0);
        let _ = play.rank(u32::MAX);
    }
}
