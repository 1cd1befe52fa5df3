//! Lines: words as UTF-8, whole and damaged, and bytes by chance.

use super::words::word;
use oracle::limits::{LINE_LIMIT, WORD_LIMIT};
use oracle::lists::encode;
use oracle::random::Random;

/// Bytes that are part of a valid three, or just not.
const NEAR_BYTES: [u8; 12] =
    [0xE1, 0xE1, 0xE1, 0x80, 0x80, 0x81, 0x82, 0xBF, 0xC0, 0x7F, 0x00, 0x0A];

/// A line of any kind.
pub fn line(random: &mut Random) -> Vec<u8> {
    match random.below(10) {
        0 => near_bytes(random),
        1 => (0..random.below(30)).map(|_| random.below(256) as u8).collect(),
        2 => about_the_limit(random),
        3..6 => {
            let mut line = encode(&word(random));
            damage(random, &mut line);
            line
        }
        _ => encode(&word(random)),
    }
}

fn near_bytes(random: &mut Random) -> Vec<u8> {
    (0..random.below(13)).map(|_| random.pick(&NEAR_BYTES)).collect()
}

fn about_the_limit(random: &mut Random) -> Vec<u8> {
    let mut line = encode(&[0x1000; WORD_LIMIT + 2]);
    line.truncate(random.between(LINE_LIMIT - 4, LINE_LIMIT + 4));
    if random.chance(40) {
        damage(random, &mut line);
    }
    line
}

/// Changes a byte, cuts the end off or puts a byte in.
fn damage(random: &mut Random, line: &mut Vec<u8>) {
    let place = random.below(line.len() + 1);
    match random.below(5) {
        0 => line.truncate(place),
        1 => line.insert(place, random.below(256) as u8),
        2 => line.insert(place, random.pick(&NEAR_BYTES)),
        fault if place < line.len() => {
            line[place] =
                if fault == 3 { random.below(256) as u8 } else { random.pick(&NEAR_BYTES) };
        }
        _ => line.push(0x0D),
    }
}
