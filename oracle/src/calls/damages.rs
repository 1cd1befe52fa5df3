//! Books that are none: one byte changed, records put together by hand, and bytes
//! changed by chance.

use super::play::Play;
use super::words::{respelled, short, stock};
use crate::limits::{BOOK_RECORD_HEAD, WORD_LIMIT};
use crate::random::Random;

/// Each byte of a small book, changed and put back.
pub fn damaged_bytes(play: &mut Play, random: &mut Random) {
    let words: [&[u16]; 4] =
        [&[0x1000], &[0x1000, 0x1014, 0x103A, 0x1037], &[0x1025], &[0x1000, 0x102C]];
    play.new_book(60);
    for word in words {
        let _ = play.add(word, stock(random));
    }
    let _ = play.remove(words[2]);
    // Starts 0, 8, 19 and 27; the first free byte is 36.
    for start in [0, 8, 19, 27] {
        for byte in [0x00, 0x01, 0x4C, 0x4E, 0x57, 0xFF] {
            changed(play, random, start, byte);
        }
        for byte in [0x00, 0x2C, 0x2D, 0x2E, 0x4D, 0x56, 0x57, 0x58, 0xFF] {
            changed(play, random, start + 1, byte);
        }
        let count = play.byte(start + 2);
        let most = WORD_LIMIT as u8;
        for byte in [0, 1, 2, 3, 4, 5, most, most + 1, 128, 255, count + 8, count + 9] {
            changed(play, random, start + 2, byte);
        }
        let letters = start + BOOK_RECORD_HEAD;
        for place in start + 3..letters {
            changed(play, random, place, 0x57);
        }
        for place in letters..letters + usize::from(count) {
            for byte in [0x00, 0x14, 0x21, 0x22, 0x2C, 0x37, 0x39, 0x3A, 0x3F, 0x40, 0x50, 0xFF] {
                changed(play, random, place, byte);
            }
        }
    }
    for place in [36, 37, 38, 43, 44, 58, 59] {
        for byte in [0x01, 0x2D, 0x4D, 0x57] {
            changed(play, random, place, byte);
        }
    }
}

/// Changes a byte, plays calls on what is there then, and puts the byte back.
fn changed(play: &mut Play, random: &mut Random, place: usize, byte: u8) {
    let before = play.byte(place);
    play.poke(place, byte);
    let _ = play.check();
    if random.chance(40) {
        let _ = match random.below(4) {
            0 => play.find(&[0x1000, 0x102C]),
            1 => play.find(&[0x1025]),
            2 => play.rank(random.below(5) as u32),
            _ => play.find(&[0x1000]),
        };
    }
    // A call that is refused changes nothing, so the byte can be put back.
    let answer = play.find(&[0x1000, 0x1014, 0x1037, 0x103A]);
    if answer.is_err() && random.chance(50) {
        let _ = play.remove(&[0x1000, 0x1014, 0x1037, 0x103A]);
    }
    if answer.is_err_and(|refusal| refusal.number == 11) && random.chance(50) {
        let _ = match random.below(2) {
            0 => play.add(&[0x1020], stock(random)),
            _ => play.tidy(),
        };
    }
    play.poke(place, before);
}

/// Buffers put together by hand: marks, counts and words of every wrong kind, each
/// alone with some bytes behind it, and each behind a record, live or removed.
pub fn made_by_hand(play: &mut Play, random: &mut Random) {
    let (right, removed) = (record(b"MW", 2, &[0x05, 0x2C]), record(b"M-", 1, &[0x26]));
    for bytes in hand_made() {
        for (before, behind) in [(&[][..], 0), (&[], 1), (&[], 9), (&right, 0), (&removed, 0)] {
            let whole = [before, &bytes].concat();
            play.new_book(whole.len() + behind);
            play.poke_all(0, &whole);
            let _ = play.check();
            let _ = match random.below(4) {
                0 => play.find(&[0x1005, 0x102C]),
                1 => play.remove(&[0x1000]),
                2 => play.tidy(),
                _ => play.add(&[0x1000], stock(random)),
            };
            let _ = play.rank(random.below(3) as u32);
        }
    }
}

fn record(mark: &[u8; 2], count: usize, values: &[u8]) -> Vec<u8> {
    [&mark[..], &[count as u8, 1, 2, 3, 4], values].concat()
}

fn hand_made() -> Vec<Vec<u8>> {
    let ka = record(b"MW", 1, &[0x00]);
    let removed_ka = record(b"M-", 1, &[0x00]);
    let two = |first: &[u8], second: &[u8]| [first, second].concat();
    vec![
        // Right, for comparison.
        ka.clone(),
        removed_ka.clone(),
        two(&ka, &removed_ka),
        two(&removed_ka, &ka),
        two(&removed_ka, &removed_ka),
        record(b"MW", 3, &[0x25, 0x00, 0x3A]),
        record(b"MW", 5, &[0x18, 0x10, 0x3A, 0x05, 0x3A]),
        record(b"M-", 6, &[0x25, 0x10, 0x3A, 0x10, 0x3A, 0x38]),
        // Equal live words; of three, the second is the first that is wrong.
        two(&ka, &ka),
        two(&two(&ka, &ka), &ka),
        two(&two(&ka, &removed_ka), &ka),
        two(&two(&removed_ka, &ka), &ka),
        // An equal live word before a broken record, and after one.
        two(&two(&ka, &ka), b"M"),
        two(&two(&ka, b"MX"), &ka),
        // Marks.
        record(b"MX", 1, &[0x00]),
        record(b"M\0", 1, &[0x00]),
        record(b"NW", 1, &[0x00]),
        record(b"WM", 1, &[0x00]),
        record(b"mw", 1, &[0x00]),
        record(b"\0W", 1, &[0x00]),
        b"M".to_vec(),
        b"MW".to_vec(),
        b"M-".to_vec(),
        b"MW\x01".to_vec(),
        // Counts.
        record(b"MW", 0, &[]),
        record(b"M-", 0, &[]),
        record(b"MW", 2, &[0x00]),
        record(b"M-", 2, &[0x00]),
        record(b"MW", WORD_LIMIT, &[0x00; WORD_LIMIT]),
        record(b"MW", WORD_LIMIT, &[0x00; WORD_LIMIT - 1]),
        record(b"MW", WORD_LIMIT + 1, &[0x00; WORD_LIMIT + 1]),
        record(b"MW", 255, &[0x00; 255]),
        record(b"MW", 1, &[]),
        // Words: not readable, not in storage order, or open at their end.
        record(b"MW", 1, &[0x22]),
        record(b"M-", 1, &[0x50]),
        record(b"MW", 1, &[0x3F]),
        record(b"MW", 1, &[0xFF]),
        record(b"MW", 2, &[0x00, 0x39]),
        record(b"M-", 2, &[0x00, 0x39]),
        record(b"MW", 3, &[0x00, 0x00, 0x39]),
        record(b"M-", 3, &[0x00, 0x00, 0x39]),
        record(b"MW", 4, &[0x00, 0x14, 0x37, 0x3A]),
        record(b"M-", 4, &[0x00, 0x14, 0x37, 0x3A]),
        record(b"MW", 2, &[0x25, 0x2E]),
        record(b"MW", 3, &[0x00, 0x25, 0x3A]),
        record(b"MW", 4, &[0x00, 0x25, 0x39, 0x05]),
        record(b"MW", 3, &[0x00, 0x2C, 0x31]),
        record(b"M-", 2, &[0x4C, 0x38]),
        // A third final, a stacked second one, kinzi as one, and a tone between two.
        record(b"MW", 7, &[0x00, 0x00, 0x3A, 0x05, 0x3A, 0x19, 0x3A]),
        record(b"M-", 6, &[0x00, 0x00, 0x3A, 0x05, 0x39, 0x05]),
        record(b"MW", 7, &[0x00, 0x00, 0x3A, 0x04, 0x3A, 0x39, 0x02]),
        record(b"M-", 6, &[0x00, 0x10, 0x3A, 0x37, 0x05, 0x3A]),
        record(b"MW", 6, &[0x00, 0x10, 0x3A, 0x05, 0x37, 0x3A]),
        // Stray bytes.
        two(&ka, b"\0\x01"),
        two(&ka, b"\0\0\0M"),
        two(&two(&ka, b"\0"), &ka),
        two(&ka, b"\x57"),
        two(b"\0", &ka),
        b"\0\0\0\0\0\0\0\xFF".to_vec(),
    ]
}

/// Books with bytes changed by chance, mostly such as stand in books: a few, since
/// random calls meet many more.
pub fn any_damage(play: &mut Play, random: &mut Random) {
    for _ in 0..12 {
        let size = random.between(30, 200);
        play.new_book(size);
        let words: Vec<Vec<u16>> = (0..random.between(2, 7)).map(|_| short(random)).collect();
        for word in &words {
            let _ = play.add(word, stock(random));
        }
        for _ in 0..6 {
            let place = random.below(size);
            let byte = random.pick(&[0x00, 0x01, 0x2D, 0x3A, 0x4D, 0x57, 0x1E, 0x40, 0xFF]);
            let before = play.byte(place);
            play.poke(place, byte);
            let chosen = random.below(words.len());
            let word = respelled(random, &words[chosen]);
            let _ = play.check();
            let _ = match random.below(5) {
                0 => play.add(&word, stock(random)),
                1 => play.remove(&word),
                2 => play.find(&word),
                3 => play.tidy(),
                _ => play.rank(random.below(words.len()) as u32),
            };
            if random.chance(70) {
                play.poke(place, before);
            }
        }
    }
}
