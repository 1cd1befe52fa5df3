//! Adds that are previewed, and then done: each answer of a preview stands before the one
//! of its add.

use super::fillings::{add_until_full, put_longest};
use super::play::{Answer, Play};
use super::tidyings::add_to_the_last_byte;
use super::words::{of_length, refused, respelled, short, stock};
use crate::limits::{BOOK_RECORD_HEAD, WORD_LIMIT};
use crate::random::Random;

/// Previews an add, and then adds: "the answer that add gives on a copy of the book".
fn previewed(play: &mut Play, word: &[u16], stock: u32) -> Answer {
    let preview = play.preview(word, stock);
    let added = play.add(word, stock);
    assert_eq!(preview, added);
    added
}

/// Books that fill until a word has no room. Each word is then live, and goes and comes
/// back, for which the book is tidied.
pub fn fillings(play: &mut Play, random: &mut Random) {
    for size in [8, 30, 60, 140] {
        play.new_book(size);
        let (words, _) = add_until_full(play, random, short, previewed);
        for word in words {
            let _ = play.preview(&word, stock(random));
            let _ = play.remove(&word);
            let _ = previewed(play, &respelled(random, &word), stock(random));
        }
        let _ = play.check();
    }
}

/// Books in which a byte decides, with a removed record before a live one or behind it.
pub fn fits(play: &mut Play, random: &mut Random) {
    for (removed, free) in [(8, 8), (9, 0), (10, 12)] {
        add_to_the_last_byte(play, random, removed, free, previewed);
    }
}

/// A few words that come and go. Many previews are not followed by an add, and the calls
/// behind them find the book untouched.
pub fn turns(play: &mut Play, random: &mut Random) {
    for size in [25, 45, 90, 400] {
        play.new_book(size);
        let words: Vec<Vec<u16>> = (0..random.between(3, 6)).map(|_| short(random)).collect();
        for _ in 0..25 {
            let word = &words[random.below(words.len())];
            let word = respelled(random, word);
            let _ = match random.below(10) {
                0..4 => previewed(play, &word, stock(random)),
                4..6 => play.preview(&word, stock(random)),
                6..9 => play.remove(&word),
                _ => play.find(&word),
            };
        }
    }
}

/// A book of the longest words, whose starts and lengths have more than a byte: with no
/// word removed, with the last one, and with half of them. Two words are previewed, one
/// that fits behind them to the last byte and one with a value more; then a live one.
pub fn limits(play: &mut Play, random: &mut Random) {
    const RECORDS: usize = 40;
    let (record, free) = (BOOK_RECORD_HEAD + WORD_LIMIT, 15);
    play.new_book(RECORDS * record + free);
    (0..RECORDS).for_each(|number| put_longest(play, number));
    let fitting = free - BOOK_RECORD_HEAD;
    let words = [fitting, fitting + 1].map(|length| of_length(random, length));
    for first_removed in [RECORDS, RECORDS - 1, RECORDS / 2] {
        for number in first_removed..RECORDS {
            play.poke(number * record + 1, b'-');
        }
        for word in &words {
            let _ = play.preview(word, stock(random));
        }
    }
    for word in &words {
        let _ = previewed(play, word, stock(random));
    }
    let mut last_live = [0x1000; WORD_LIMIT];
    last_live[RECORDS / 2 - 1] = 0x1001;
    let _ = play.preview(&last_live, stock(random));
}

/// Each refused word on a book that would be tidied, the longest ones aside, and then all of
/// them on a buffer that is no book.
pub fn refusals(play: &mut Play, random: &mut Random) {
    play.new_book(17);
    let _ = play.add(&[0x1000], stock(random));
    let _ = play.add(&[0x1001], stock(random));
    let _ = play.remove(&[0x1000]);
    for (_, word) in refused().into_iter().filter(|(_, word)| word.len() < WORD_LIMIT / 2) {
        let _ = previewed(play, &word, stock(random));
    }
    play.poke(16, 0x01);
    for (number, word) in refused() {
        let answer = play.preview(&word, stock(random));
        assert_eq!(answer.err().map(|refusal| refusal.number), Some(number));
    }
    let _ = previewed(play, &[0x1000; WORD_LIMIT + 1], stock(random));
    let _ = previewed(play, &[0x1001], stock(random));
}

/// A book of two live words and a removed one between them, each byte of it changed and put
/// back.
pub fn damage(play: &mut Play, random: &mut Random) {
    let words: [&[u16]; 3] = [&[0x1000, 0x102C], &[0x1001], &[0x1000, 0x1014, 0x103A]];
    let new = [0x1002, 0x1037];
    play.new_book(32);
    for word in words {
        let _ = play.add(word, stock(random));
    }
    let _ = play.remove(words[1]);
    for place in 0..32 {
        let before = play.byte(place);
        for byte in [0x00, 0x01, 0x2D, 0x57].into_iter().filter(|&byte| byte != before) {
            play.poke(place, byte);
            // An add that is refused changes nothing, so the byte can be put back.
            if play.preview(&new, 7).is_err() && random.chance(60) {
                let _ = play.add(&new, 7);
            }
        }
        play.poke(place, before);
    }
}
