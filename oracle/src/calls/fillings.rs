//! Buffers of lengths near the limits, and books that fill up to the last byte.

use super::play::{Adding, Play};
use super::words::{of_length, short, stock};
use crate::limits::{BOOK_LIMIT, BOOK_RECORD_HEAD, WORD_LIMIT};
use crate::random::Random;

/// The bytes of the longest record, and of the shortest.
const LONGEST: usize = BOOK_RECORD_HEAD + WORD_LIMIT;
const SHORTEST: usize = BOOK_RECORD_HEAD + 1;

/// Every length near nothing and near the limit.
pub fn lengths(play: &mut Play, random: &mut Random) {
    for length in (0..=20).chain(BOOK_LIMIT - 4..=BOOK_LIMIT + 6) {
        play.new_book(length);
        ask_all(play, &[0x1000]);
        let _ = play.add(&[0x1000], stock(random));
        ask_all(play, &[0x1000]);
        let _ = play.add(&[0x1000], 3);
        let _ = play.add(&[0x1001], stock(random));
        let _ = play.rank(1);
        let _ = play.remove(&[0x1000]);
        ask_all(play, &[0x1000]);
        let _ = play.add(&[0x1000], stock(random));
        let _ = play.tidy();
        if length > 0 {
            play.poke(0, 0x01);
            ask_all(play, &[0x1000]);
            let _ = play.remove(&[0x1000]);
            play.poke(0, 0x00);
            play.poke(length - 1, 0x01);
            ask_all(play, &[0x1000]);
            let _ = play.tidy();
        }
    }
}

fn ask_all(play: &mut Play, word: &[u16]) {
    let _ = play.check();
    let _ = play.find(word);
    let _ = play.rank(0);
}

/// A word of each length into a buffer one byte too short, just long enough, and
/// one longer.
pub fn exact_fits(play: &mut Play, random: &mut Random) {
    for length in (1..=WORD_LIMIT).filter(|length| length % 7 < 2 || length % 16 == 0) {
        let word = of_length(random, length);
        let exact = BOOK_RECORD_HEAD + length;
        for size in [exact - 1, exact, exact + 1] {
            play.new_book(size);
            let _ = play.add(&word, stock(random));
            let _ = play.check();
            let _ = play.add(&[0x1021], 1);
        }
    }
}

/// Books of several sizes, filled with short words and then to the last byte.
pub fn filled(play: &mut Play, random: &mut Random) {
    let about_the_longest = [LONGEST, LONGEST + 1, LONGEST + SHORTEST];
    let sizes = [&[9, 20][..], &about_the_longest, &[100, 2 * LONGEST, 200, 300, 500, 900]];
    for size in sizes.concat() {
        play.new_book(size);
        fill(play, random, size, short);
    }
}

/// Puts the longest record of a number there, byte by byte: its word is 1000 alone, but
/// for one value that no other of them has at its place.
pub fn put_longest(play: &mut Play, number: usize) {
    let start = number * LONGEST;
    play.poke_all(start, &[b'M', b'W', WORD_LIMIT as u8]);
    let place = start + BOOK_RECORD_HEAD + number % WORD_LIMIT;
    play.poke(place, 1 + (number / WORD_LIMIT) as u8);
}

/// The longest book, filled with the longest words, of which the last few are added,
/// and then to the last byte. Where the one shorter record is removed, no other has
/// room; then some records go, half of them, and all.
pub fn filled_to_the_limit(play: &mut Play, random: &mut Random) {
    play.new_book(BOOK_LIMIT);
    (0..BOOK_LIMIT / LONGEST - 8).for_each(|number| put_longest(play, number));
    fill(play, random, BOOK_LIMIT, |random| of_length(random, WORD_LIMIT));
    let longest = (BOOK_LIMIT / LONGEST) as u32;
    let about_the_last = [longest - 3, longest - 1, longest, longest + 1, longest + 2];
    for rank in [&[1, 2, 100, 200][..], &about_the_last].concat() {
        let _ = play.rank(rank);
    }
    let mut starts = play.starts();
    starts.retain(|start| usize::from(play.byte(start + 2)) < WORD_LIMIT);
    remove_at(play, starts);
    let _ = play.add(&of_length(random, WORD_LIMIT), stock(random));
    for one_of in [57, 2, 1] {
        remove_at(play, play.starts().into_iter().step_by(one_of));
        let _ = play.add(&of_length(random, WORD_LIMIT), stock(random));
        let _ = play.rank(0);
        let _ = play.tidy();
        let _ = play.check();
    }
}

/// Marks the records that start there as removed.
fn remove_at(play: &mut Play, starts: impl IntoIterator<Item = usize>) {
    for start in starts {
        play.poke(start + 1, 0x2D);
    }
}

/// A book of several hundred records, so that chains of a hash meet; words that come
/// and go in it, and records that are made live again beside a live one.
pub fn many_records(play: &mut Play, random: &mut Random) {
    const RECORDS: usize = 300;
    play.new_book(RECORDS * (BOOK_RECORD_HEAD + 4));
    let mut words: Vec<Vec<u16>> = Vec::new();
    let mut starts: Vec<usize> = Vec::new();
    while words.len() < RECORDS {
        let length = random.between(1, 3);
        let word = of_length(random, length);
        if let Ok((start, _)) = play.add(&word, stock(random)) {
            words.push(word);
            starts.push(start);
        }
    }
    for round in 0..30 {
        let chosen = random.below(words.len());
        let word = words[chosen].clone();
        let _ = play.find(&word);
        if play.remove(&word).is_err() || play.add(&word, stock(random)).is_err() {
            continue;
        }
        let _ = play.find(&word);
        let removed = starts[chosen];
        if round % 6 == 0 && play.byte(removed + 1) == 0x2D {
            play.poke(removed + 1, 0x57);
            ask_all(play, &word);
            play.poke(removed + 1, 0x2D);
        }
    }
    for rank in (0..=RECORDS).step_by(20) {
        let _ = play.rank(rank as u32);
    }
    for head in 0x1000..=0x1005 {
        let found = play.find_prefix(&[head], 0).map_or_else(|short| short.place, |(live, _)| live);
        let _ = play.find_prefix(&[head], found);
    }
    let _ = play.check();
}

/// Adds words until one has no room: what was added, and the live length.
pub fn add_until_full(
    play: &mut Play,
    random: &mut Random,
    make: fn(&mut Random) -> Vec<u16>,
    add: Adding,
) -> (Vec<Vec<u16>>, usize) {
    let mut words: Vec<Vec<u16>> = Vec::new();
    loop {
        let word = make(random);
        match add(play, &word, stock(random)) {
            Ok(_) => words.push(word),
            Err(refusal) if refusal.number == 14 => return (words, refusal.place),
            Err(_) => {}
        }
    }
}

/// Adds words until one has no room, and then a word that ends at the last byte.
fn fill(play: &mut Play, random: &mut Random, size: usize, make: fn(&mut Random) -> Vec<u16>) {
    let (words, live_length) = add_until_full(play, random, make, Play::add);
    let room = size - live_length;
    if room < SHORTEST {
        let _ = play.add(&[0x1020], 1);
    } else if room <= LONGEST {
        fill_exactly(play, random, room - BOOK_RECORD_HEAD);
    }
    let _ = play.check();
    for word in words.iter().take(4) {
        // 12 comes before 14; the room of a removed record is used again by tidying.
        let _ = play.add(word, 1);
        let _ = play.remove(word);
        let _ = play.add(word, 2);
        let _ = play.find(word);
    }
    let _ = play.check();
    let _ = play.rank(0);
}

/// Adds a word one value too long, then one that fits, then one more. A word of few
/// values may be there already, so some are tried.
fn fill_exactly(play: &mut Play, random: &mut Random, length: usize) {
    if length < WORD_LIMIT {
        let _ = play.add(&of_length(random, length + 1), 7);
    }
    for _ in 0..4 {
        if play.add(&of_length(random, length), stock(random)).is_ok() {
            break;
        }
    }
    let _ = play.add(&[0x1020], 1);
    let _ = play.add(&of_length(random, WORD_LIMIT), 1);
}
