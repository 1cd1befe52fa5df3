//! Records for the writer: of rows, of rows that were changed, and bytes by chance.

use oracle::letters::{admitted_values, carries_marks, is_head};
use oracle::limits::{RECORD_SIZE, WORD_LIMIT};
use oracle::lists::{random_row, row_of_length};
use oracle::random::Random;

/// Records of any kind, [`RECORD_SIZE`] bytes each but for faults.
pub fn records(random: &mut Random) -> Vec<u8> {
    match random.below(20) {
        0 => any_bytes(random),
        1 => small_bytes(random),
        2 => one_syllable(random),
        3 => markless(random),
        4..6 => with_finals(random),
        6..9 => row_about_the_limit(random),
        9 => of_seven_bytes(random),
        10..15 => {
            let mut bytes = row(random);
            for _ in 0..random.pick(&[1, 1, 2]) {
                damage(random, &mut bytes);
            }
            bytes
        }
        _ => row(random),
    }
}

fn row(random: &mut Random) -> Vec<u8> {
    let syllables = random.below(6);
    random_row(random, syllables).records.concat()
}

/// About [`WORD_LIMIT`] values; the joined 103F of two records is one of them.
fn row_about_the_limit(random: &mut Random) -> Vec<u8> {
    let length = random.between(WORD_LIMIT - 2, WORD_LIMIT + 2);
    row_of_length(random, length).records.concat()
}

/// The records of a syllable, of which the head is one that takes no medial and no vowel mark: it
/// may or may not carry what stands behind it.
fn markless(random: &mut Random) -> Vec<u8> {
    let mut records = random_row(random, 1).records;
    let heads = admitted_values().filter(|&value| is_head(value) && !carries_marks(value));
    records[0][0] = (random.pick(&heads.collect::<Vec<u16>>()) - 0x1000) as u8;
    if random.chance(60) {
        records[0][1..4].fill(0);
    }
    records.concat()
}

/// The records of a row, of which one has other finals, or another link behind them.
fn with_finals(random: &mut Random) -> Vec<u8> {
    let syllables = random.between(1, 3);
    let mut records = random_row(random, syllables).records;
    let place = random.below(records.len());
    let record = &mut records[place];
    for byte in &mut record[4..6] {
        *byte = random.pick(&[0, 1, 5, 6, 17, 31, 33, 34]);
    }
    if random.chance(60) {
        record[6] = random.pick(&[0, 1, 1, 1, 2, 3]);
    }
    records.concat()
}

/// The records of a row without the byte of the second final.
fn of_seven_bytes(random: &mut Random) -> Vec<u8> {
    let syllables = random.pick(&[1, 1, 2, 3, 7, 8]);
    let records = random_row(random, syllables).records;
    records.iter().flat_map(|record| [&record[..5], &record[6..]].concat()).collect()
}

fn any_bytes(random: &mut Random) -> Vec<u8> {
    (0..random.below(30)).map(|_| random.below(256) as u8).collect()
}

/// One record, each byte about as large as it may be; mostly without a second final.
fn one_syllable(random: &mut Random) -> Vec<u8> {
    let second = if random.chance(30) { 36 } else { 1 };
    [0x52, 14, 15, 3, 36, second, 5, 4].map(|bound| random.below(bound) as u8).to_vec()
}

fn small_bytes(random: &mut Random) -> Vec<u8> {
    let syllables = random.between(1, 3);
    (0..syllables).flat_map(|_| one_syllable(random)).collect()
}

/// Changes a byte, or takes, doubles or swaps records or bytes.
fn damage(random: &mut Random, bytes: &mut Vec<u8>) {
    if bytes.is_empty() {
        return bytes.push(random.below(4) as u8);
    }
    let place = random.below(bytes.len());
    let start = place - place % RECORD_SIZE;
    match random.below(8) {
        0 => drop(bytes.drain(start..bytes.len().min(start + RECORD_SIZE))),
        1 => drop(bytes.remove(place)),
        2 => bytes.insert(place, random.below(4) as u8),
        3 => bytes[place] = bytes[place].wrapping_add(random.pick(&[1, 255])),
        4 => bytes[place] = random.below(256) as u8,
        5 => bytes.truncate(place),
        6 => bytes[place] = 0,
        _ => bytes.extend_from_within(start..),
    }
}
