//! Words for the calls.

use crate::limits::WORD_LIMIT;
use crate::lists::{random_row, row_of_length, shuffle_runs};
use crate::random::Random;

/// A word of one to three syllables, or one more.
pub fn short(random: &mut Random) -> Vec<u16> {
    let syllables = random.between(1, 3);
    random_row(random, syllables).values
}

/// A word of so many values, stored as it is.
pub fn of_length(random: &mut Random, length: usize) -> Vec<u16> {
    row_of_length(random, length).values
}

/// A word typed in another way: its marks in another order, 1026 as 1025 102E and
/// a final 1009 as 1025.
pub fn respelled(random: &mut Random, word: &[u16]) -> Vec<u16> {
    let mut respelled = Vec::new();
    for (place, &value) in word.iter().enumerate() {
        match (value, word.get(place + 1)) {
            (0x1026, _) if random.chance(70) => respelled.extend([0x1025, 0x102E]),
            (0x1009, Some(0x103A | 0x1039)) if random.chance(70) => respelled.push(0x1025),
            _ => respelled.push(value),
        }
    }
    shuffle_runs(random, &mut respelled);
    respelled
}

/// A stock number at a limit, a small one, or any.
pub fn stock(random: &mut Random) -> u32 {
    match random.below(4) {
        0 => random.pick(&STOCKS),
        1 => random.below(100) as u32,
        _ => random.below(1 << 32) as u32,
    }
}

/// Stock numbers at the limits, and those whose bytes tell their order.
pub const STOCKS: [u32; 12] = [
    0,
    1,
    u32::MAX,
    0x0403_0201,
    0x0102_0304,
    0xFF00_0000,
    0x0000_00FF,
    0x8000_0000,
    0x7FFF_FFFF,
    0x0001_0000,
    0x0000_0100,
    0x4D57_4D2D,
];

/// Words that are refused, each with the number of its refusal.
pub fn refused() -> Vec<(u8, Vec<u16>)> {
    let many = |count: usize, value: u16| vec![value; count];
    let joined = |first: Vec<u16>, second: &[u16]| [&first, second].concat();
    vec![
        (1, many(WORD_LIMIT + 1, 0x1000)),
        (1, many(WORD_LIMIT + 2, 0x1000)),
        // Stored, it would be no longer than a word may be.
        (1, joined(many(WORD_LIMIT - 1, 0x1000), &[0x1025, 0x102E])),
        (1, joined(many(WORD_LIMIT, 0x1000), &[0x1022])),
        (1, joined(many(WORD_LIMIT, 0x1000), &[0x1039])),
        (8, vec![]),
        (2, vec![0x1022]),
        (2, vec![0x1000, 0x0041]),
        (2, vec![0x1000, 0x1039, 0x1050]),
        (2, vec![0xFFFF, 0x1000]),
        (2, vec![0x1000, 0x0000]),
        (2, vec![0x103A, 0x1028, 0x1033]),
        (2, joined(many(WORD_LIMIT - 1, 0x1000), &[0x10FF])),
        (3, vec![0x1000, 0x1039]),
        (3, vec![0x103F]),
        (3, vec![0x1000, 0x103B, 0x103C]),
        (3, vec![0x1000, 0x102C, 0x103A]),
        (3, vec![0x1000, 0x1004, 0x1039, 0x1000]),
        // Stored as it is: 102E is no neighbour of 1025.
        (3, vec![0x1025, 0x1031, 0x102E]),
        (3, vec![0x104C, 0x1000, 0x103A]),
        (3, vec![0x1023, 0x103B, 0x1038]),
        (3, joined(many(WORD_LIMIT - 2, 0x1000), &[0x1038, 0x1037])),
        // A third final, a stacked second one, kinzi as one, and a tone between two.
        (3, vec![0x1000, 0x1000, 0x103A, 0x1005, 0x103A, 0x1019, 0x103A]),
        (3, vec![0x1000, 0x1000, 0x103A, 0x1005, 0x1039]),
        (3, vec![0x1000, 0x1000, 0x103A, 0x1004, 0x103A, 0x1039]),
        (3, vec![0x1000, 0x1010, 0x1037, 0x103A, 0x1005, 0x103A]),
        (3, joined(many(WORD_LIMIT - 6, 0x1000), &[0x103A, 0x1005, 0x103A, 0x1005, 0x103A])),
        (4, vec![0x1000, 0x1000, 0x1039]),
        (4, vec![0x1000, 0x1004, 0x103A, 0x1039]),
        (4, vec![0x1023, 0x1000, 0x1039]),
        (4, joined(many(WORD_LIMIT - 1, 0x1000), &[0x1039])),
    ]
}
