//! Calls on books: on the one that goes on, and on copies of it that were damaged.

use super::queries::query;
use super::shelf::{letters, Shelf};
use super::words::{self, valid};
use super::{near, needed};
use crate::call::{Call, Maker};
use crate::case::Case;
use oracle::limits::{BOOK_LIMIT, BOOK_RECORD_HEAD, WORD_LIMIT};
use oracle::lists::{crowded, row_of_length, shuffle_runs};
use oracle::random::Random;
use std::sync::LazyLock;

/// The calls, each as often as it is picked.
static CALLS: LazyLock<Vec<Call>> = LazyLock::new(|| Call::made_by(Maker::Books));

/// Above so many records a book is ranked only now and then, since that takes long.
const MANY_RECORDS: usize = 60;

/// The next call.
pub fn case(random: &mut Random, shelf: &mut Shelf) -> Case {
    shelf.turn(random);
    let call = match random.pick(&CALLS) {
        call if shelf.starts.len() > MANY_RECORDS => without_sorting(random, call),
        call => call,
    };
    of_call(random, shelf, call)
}

/// A call on the book as it stands, or on a damaged copy.
pub fn of_call(random: &mut Random, shelf: &Shelf, call: Call) -> Case {
    let mut case = Case::of_bytes(call, shelf.bytes.clone());
    if random.chance(20) {
        for _ in 0..random.pick(&[1, 1, 1, 2]) {
            damage(random, shelf, &mut case.bytes);
        }
    }
    case.word = match call.row().lists {
        [] => Vec::new(),
        ["query"] => query(random, shelf),
        _ => word(random, shelf, call),
    };
    case.numbers = match call.number_names() {
        [] => [0; 2],
        ["stock"] => [stock(random), 0],
        ["rank"] => [rank(random, shelf), 0],
        ["room", "start"] => {
            let start = start(random, shelf);
            let count = case.bytes.get(start.saturating_add(2)).copied().unwrap_or(0);
            [near(random, usize::from(count)), start]
        }
        _ => [near(random, needed(&case)[0]), 0],
    };
    case
}

/// The call, or mostly another one where it sorts all records.
fn without_sorting(random: &mut Random, call: Call) -> Call {
    match call {
        Call::BookRank | Call::BookFindPrefix if random.chance(90) => Call::BookFind,
        Call::BookOrder if random.chance(90) => Call::BookWord,
        Call::BookEntries | Call::BookPrefixEntries => Call::BookCheck,
        call => call,
    }
}

/// Where a record starts, or where none does: within one, at the end of the records, or beyond.
fn start(random: &mut Random, shelf: &Shelf) -> usize {
    match random.below(12) {
        0 => random.pick(&[usize::MAX, 1 << 16, 1 << 32, BOOK_LIMIT, BOOK_LIMIT - 1]),
        1 => shelf.end,
        2 => random.below(shelf.bytes.len() + 2),
        3 if !shelf.starts.is_empty() => {
            random.pick(&shelf.starts) + random.between(1, BOOK_RECORD_HEAD + 1)
        }
        _ if !shelf.starts.is_empty() => random.pick(&shelf.starts),
        _ => 0,
    }
}

/// A word that is in the book, perhaps typed otherwise, or another.
fn word(random: &mut Random, shelf: &Shelf, call: Call) -> Vec<u16> {
    let known = if call.is_add_or_preview() { 6 } else { 14 };
    match random.below(20) {
        0 => Vec::new(),
        1 | 2 => words::word(random),
        number if number < 3 + known && !shelf.words.is_empty() => {
            let mut word = shelf.words[random.below(shelf.words.len())].clone();
            match random.below(8) {
                0 => words::damage(random, &mut word),
                1..4 => shuffle_runs(random, &mut word),
                _ => {}
            }
            word
        }
        9..13 if call.is_add_or_preview() => ending_near_the_end(random, shelf),
        18 => vec![random.pick(&[0x1000, 0x1015, 0x1021, 0x1025, 0x1040, 0x104F])],
        19 => words::beginning(random),
        _ => shelf.another(random),
    }
}

/// A word whose record ends at the buffer's last byte or passes it by one, behind the last record or
/// after tidying; another where no word is that long.
fn ending_near_the_end(random: &mut Random, shelf: &Shelf) -> Vec<u16> {
    let before = random.pick(&[shelf.end, shelf.live_length()]);
    let record = shelf.bytes.len() - before + random.below(2);
    match record.checked_sub(BOOK_RECORD_HEAD) {
        // Stored, the last two values are one.
        Some(length @ 2..=WORD_LIMIT) if random.chance(10) => {
            [&row_of_length(random, length - 1).values[..], &[0x1025, 0x102E]].concat()
        }
        Some(length @ 1..=WORD_LIMIT) => row_of_length(random, length).values,
        _ => shelf.another(random),
    }
}

fn stock(random: &mut Random) -> usize {
    match random.below(6) {
        0 => random.pick(&[0, 1, u32::MAX as usize, 0x0102_0304, 0xFF00_0000]),
        1 => random.below(1_000),
        _ => random.below(1 << 32),
    }
}

fn rank(random: &mut Random, shelf: &Shelf) -> usize {
    match random.below(30) {
        0 => random.pick(&[usize::MAX, 1 << 32, 1 << 16, 1 << 8]),
        1 => shelf.starts.len(),
        _ => random.below(shelf.starts.len() + 1),
    }
}

/// Changes a copy of the book, mostly so that it is none.
fn damage(random: &mut Random, shelf: &Shelf, bytes: &mut Vec<u8>) {
    let start = if shelf.starts.is_empty() { 0 } else { random.pick(&shelf.starts) };
    let values = start + BOOK_RECORD_HEAD;
    let most = WORD_LIMIT as u8;
    let any = random.below(256) as u8;
    match random.below(20) {
        0 => set(bytes, start, any),
        1 => set(bytes, start, 0),
        2 => set(bytes, start + 1, any),
        3..5 => set(bytes, start + 1, random.pick(b"W-")),
        5 => set(bytes, start + 2, random.pick(&[0, most + 1, most, most + 2, 128, 255, any])),
        6 => change(bytes, start + 2, random.pick(&[1, 255])),
        7 => set(bytes, random.between(start + 3, values - 1), any),
        8 => set(bytes, values + random.below(6), any),
        9 => set(bytes, values + random.below(6), any % 0x50),
        10 => {
            let place = values + random.below(5);
            if place + 1 < bytes.len() {
                bytes.swap(place, place + 1);
            }
        }
        11 => set(bytes, shelf.end + random.below(12), any),
        12 => {
            if let Some(last) = bytes.last_mut() {
                *last = any;
            }
        }
        13 => bytes.truncate(random.below(bytes.len() + 1)),
        14 => bytes.truncate((shelf.end + random.below(3)).saturating_sub(1)),
        15 => put_record(random, shelf, bytes),
        16 => put_record_as_typed(random, shelf, bytes),
        17 => {
            let fronts: [&[u8]; 5] = [b"M", b"MW", b"M-\x01", &[b'M', b'W', most], b"W"];
            put(bytes, shelf.end, random.pick(&fronts));
        }
        18 if random.chance(10) => bytes.resize(BOOK_LIMIT + random.between(1, 3), 0),
        18 => bytes.extend((0..random.below(9)).map(|_| random.pick(b"\0\0\0\0\0\0\0M"))),
        _ => bytes.iter_mut().take(40).for_each(|byte| *byte = random.below(256) as u8),
    }
}

fn set(bytes: &mut [u8], place: usize, byte: u8) {
    if let Some(there) = bytes.get_mut(place) {
        *there = byte;
    }
}

fn change(bytes: &mut [u8], place: usize, by: u8) {
    if let Some(there) = bytes.get_mut(place) {
        *there = there.wrapping_add(by);
    }
}

fn put(bytes: &mut [u8], place: usize, contents: &[u8]) {
    for (number, &byte) in contents.iter().enumerate() {
        set(bytes, place + number, byte);
    }
}

/// Puts a word that is there already behind the last record.
fn put_record(random: &mut Random, shelf: &Shelf, bytes: &mut [u8]) {
    if !shelf.words.is_empty() {
        let word = &shelf.words[random.below(shelf.words.len())];
        put(bytes, shelf.end, &record(random.pick(&[b"MW", b"MW", b"M-"]), &letters(word)));
    }
}

/// Puts a word behind the last record that may be unreadable or in no storage order.
fn put_record_as_typed(random: &mut Random, shelf: &Shelf, bytes: &mut [u8]) {
    let mut word = if random.chance(20) { crowded(random) } else { valid(random) };
    if random.chance(60) {
        shuffle_runs(random, &mut word);
    }
    if random.chance(40) {
        words::damage(random, &mut word);
    }
    put(bytes, shelf.end, &record(random.pick(&[b"MW", b"M-"]), &letters(&word)));
}

fn record(mark: &[u8; 2], letters: &[u8]) -> Vec<u8> {
    [mark, &[letters.len() as u8, 1, 2, 3, 4][..], letters].concat()
}
