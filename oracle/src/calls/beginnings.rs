//! Records found by their first syllables.

use super::play::Play;
use super::words::{refused, respelled, short, stock};
use crate::limits::{BOOK_RECORD_HEAD, WORD_LIMIT};
use crate::random::Random;

/// Words that continue one another, some by a final in another form, and words beside
/// them that do not.
const FAMILY: [&[u16]; 38] = [
    &[0x1000, 0x1009, 0x103A],
    &[0x1000, 0x1009, 0x1039, 0x1005],
    &[0x1010],
    &[0x1010, 0x1000],
    &[0x1010, 0x102C],
    &[0x1010, 0x102B, 0x1000],
    &[0x1010, 0x1000, 0x103A],
    &[0x1010, 0x1000, 0x103A, 0x1038],
    &[0x1010, 0x1000, 0x103A, 0x1000],
    &[0x1010, 0x1000, 0x1039, 0x1000],
    &[0x1010, 0x1000, 0x1039, 0x1000, 0x101E, 0x102D, 0x102F, 0x101C, 0x103A],
    &[0x1010, 0x1000, 0x103A, 0x1000, 0x103A],
    &[0x1010, 0x1000, 0x103A, 0x1005, 0x103A],
    &[0x1010, 0x1000, 0x103A, 0x1005, 0x103A, 0x1038],
    &[0x1010, 0x1000, 0x103A, 0x1005, 0x103A, 0x1000],
    &[0x1015, 0x103C],
    &[0x1015, 0x103C, 0x101E, 0x103A],
    &[0x1015, 0x103C, 0x101E, 0x103A, 0x101E, 0x102C],
    &[0x1015, 0x103C, 0x103F],
    &[0x1015, 0x103C, 0x103F, 0x1014, 0x102C],
    &[0x1021, 0x102D],
    &[0x1021, 0x1004, 0x103A],
    &[0x1021, 0x1004, 0x103A, 0x1002, 0x102C],
    &[0x1021, 0x1004, 0x103A, 0x1039, 0x1002, 0x101C, 0x1014, 0x103A],
    &[0x1023],
    &[0x1023, 0x1000],
    &[0x1025, 0x1000, 0x103A],
    &[0x1025, 0x1000, 0x1039, 0x1000],
    &[0x1025, 0x1000, 0x103A, 0x1005, 0x103A],
    &[0x1025, 0x1000, 0x103A, 0x1005, 0x103A, 0x1037],
    &[0x1021, 0x102F, 0x1000, 0x103A, 0x1005, 0x103A, 0x1000],
    &[0x1021, 0x102F, 0x1000, 0x1039, 0x1000, 0x102C],
    &[0x1026, 0x1000],
    &[0x1026, 0x1038],
    &[0x1027, 0x103F],
    &[0x104E, 0x1004, 0x103A, 0x1038],
    &[0x104E, 0x1004, 0x103A, 0x1005, 0x103A],
    &[0x104E, 0x1004, 0x103A, 0x1005, 0x103A, 0x1038, 0x1000],
];

/// Beginnings that are no words of the family.
const OTHERS: [&[u16]; 12] = [
    &[0x1000],
    &[0x1010, 0x102B],
    &[0x1010, 0x1005, 0x103A, 0x1000, 0x103A],
    &[0x1021, 0x102F, 0x1000, 0x103A, 0x1005, 0x103A],
    &[0x104E, 0x1004, 0x103A, 0x1005, 0x103A, 0x1038],
    &[0x1010, 0x1000, 0x103A, 0x1000, 0x101E, 0x102D, 0x102F, 0x101C, 0x103A],
    &[0x1015, 0x103C, 0x101E, 0x103A, 0x101E],
    &[0x1021, 0x1004, 0x103A, 0x1002],
    &[0x1026],
    &[0x1027, 0x101E, 0x103A],
    &[0x1040],
    &[0x104E],
];

/// The family in any order, some of it removed: every beginning typed in some way,
/// with room for what it finds or without.
pub fn beginnings(play: &mut Play, random: &mut Random) {
    for round in 0..3 {
        let mut words = FAMILY;
        random.shuffle(&mut words);
        play.new_book(FAMILY.iter().map(|word| BOOK_RECORD_HEAD + word.len()).sum());
        for word in words {
            let _ = play.add(word, stock(random));
        }
        for word in words {
            if random.chance(round * 20) {
                let _ = play.remove(word);
            }
        }
        for query in FAMILY.iter().chain(&OTHERS) {
            let _ = play.find_prefix(&respelled(random, query), random.below(6));
        }
        for room in 0..=7 {
            let _ = play.find_prefix(&[0x1010, 0x1000, 0x103A], room);
        }
    }
}

/// Heads that take a final and a tone, and no marks.
const MARKLESS: [u16; 8] = [0x1023, 0x1024, 0x1025, 0x1026, 0x1027, 0x1029, 0x102A, 0x104E];

/// What such a head carries: nothing, a tone, a final of each kind, two finals.
const CARRIED: [&[u16]; 8] = [
    &[],
    &[0x1038],
    &[0x1000, 0x103A],
    &[0x1000, 0x103A, 0x1037],
    &[0x1000, 0x103A, 0x1005, 0x103A],
    &[0x1000, 0x103A, 0x1005, 0x103A, 0x1038],
    &[0x1000, 0x1039, 0x1000],
    &[0x103F],
];

/// Each such head with all that it carries, in a book of its own, and what its first
/// syllables find.
pub fn markless(play: &mut Play, random: &mut Random) {
    for head in MARKLESS {
        play.new_book(CARRIED.iter().map(|it| BOOK_RECORD_HEAD + 1 + it.len()).sum());
        for carried in CARRIED {
            let _ = play.add(&[&[head], carried].concat(), stock(random));
        }
        for query in [&[][..], CARRIED[2], CARRIED[4]] {
            let _ = play.find_prefix(&[&[head], query].concat(), 2);
        }
    }
}

/// Words as long as they may be, and all but as long.
pub fn long_beginnings(play: &mut Play, random: &mut Random) {
    play.new_book(5 * (BOOK_RECORD_HEAD + WORD_LIMIT));
    for shorter in [2, 0, 4, 1, 3] {
        let _ = play.add(&vec![0x1000; WORD_LIMIT - shorter], stock(random));
    }
    let _ = play.remove(&[0x1000; WORD_LIMIT - 3]);
    for length in WORD_LIMIT - 4..=WORD_LIMIT + 1 {
        let _ = play.find_prefix(&vec![0x1000; length], WORD_LIMIT.saturating_sub(length));
    }
    let _ = play.find_prefix(&[0x1000], 5);
}

/// Each refused query on a book and on a buffer that is none.
pub fn refused_queries(play: &mut Play, random: &mut Random) {
    play.new_book(20);
    let _ = play.add(&[0x1000], stock(random));
    for (number, query) in refused() {
        let answer = play.find_prefix(&query, random.below(3));
        assert_eq!(answer.err().map(|refusal| refusal.number), Some(number));
    }
    play.poke(19, 0x01);
    for (number, query) in refused() {
        let answer = play.find_prefix(&query, random.below(3));
        assert_eq!(answer.err().map(|refusal| refusal.number), Some(number));
    }
    let _ = play.find_prefix(&[0x1000], 0);
    let _ = play.find_prefix(&[0x1000], 1);
}

/// Books whose bytes were changed: no book, or one in which another word begins so.
pub fn changed_beginnings(play: &mut Play, random: &mut Random) {
    for _ in 0..15 {
        let word = short(random);
        play.new_book(40);
        let _ = play.add(&word, stock(random));
        let place = random.below(BOOK_RECORD_HEAD + word.len() + 2);
        play.poke(place, random.pick(&[0x00, 0x01, 0x2D, 0x39, 0x4D, 0x57, 0xFF]));
        let _ = play.find_prefix(&word, random.below(2));
    }
}
