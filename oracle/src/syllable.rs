//! Document 01, "The syllable": the pieces of a syllable and how they are written.
//!
//! "103F is at once a final 101E of the syllable before and the head 101E of its
//! own." The final is given the empty writing and the head the writing 103F, so
//! that parts joined give the word, "with a 103F that is final and head written
//! once".

use crate::letters::*;
use crate::limits::RECORD_SIZE;

/// What stands next in a row of syllables.
#[derive(Clone, Copy, Debug, PartialEq, Eq)]
#[repr(u8)]
pub enum Piece {
    /// A new syllable of which the one before asks nothing, or the row's end.
    Head,
    /// The head after a stacked final or kinzi.
    StackedHead,
    /// The head whose 103F is also the final of the syllable before.
    GreatSaHead,
    /// "at most one medial group"
    MedialGroup,
    /// "one vowel"
    Vowel,
    /// "one final"
    Final,
    /// Document 02: "A syllable with a plain final may take a second plain final before
    /// its tone."
    SecondFinal,
    /// "and one tone"
    Tone,
}

impl Piece {
    /// All pieces.
    pub const ALL: [Piece; 8] = [
        Piece::Head,
        Piece::StackedHead,
        Piece::GreatSaHead,
        Piece::MedialGroup,
        Piece::Vowel,
        Piece::Final,
        Piece::SecondFinal,
        Piece::Tone,
    ];

    /// Whether a syllable begins here.
    pub const fn begins_syllable(self) -> bool {
        matches!(self, Piece::Head | Piece::StackedHead | Piece::GreatSaHead)
    }

    /// The bytes of a record that this piece decides.
    pub const fn record_bytes(self) -> &'static [usize] {
        match self {
            Piece::Head | Piece::StackedHead | Piece::GreatSaHead => &[0],
            Piece::MedialGroup => &[1],
            Piece::Vowel => &[2, 3],
            Piece::Final => &[4, 6],
            Piece::SecondFinal => &[5],
            Piece::Tone => &[7],
        }
    }
}

/// "head minus 1000; medial weight; vowel weight; 1 for a tall AA, else 0; final
/// weight; link; tone weight." Document 02: "A record gains a second final weight after
/// the first, eight bytes in all, and its link stays 1".
pub type Record = [u8; RECORD_SIZE];

/// "Link is 0 none, 1 plain, 2 stacked or kinzi, 3 great sa."
pub mod link {
    /// No final.
    pub const NONE: u8 = 0;
    /// A final letter and the killer.
    pub const PLAIN: u8 = 1;
    /// A final letter and the stacker, or kinzi.
    pub const STACKED: u8 = 2;
    /// The final half of 103F.
    pub const GREAT_SA: u8 = 3;
}

/// One way to write a piece.
#[derive(Clone, Copy, Debug)]
pub struct Writing {
    /// What is written.
    pub piece: Piece,
    values: [u16; 3],
    length: usize,
    /// What the writing adds to its syllable's record.
    pub record: Record,
    /// What stands after it.
    pub then: Piece,
}

impl Writing {
    /// The writing with these values, at most three.
    pub const fn new(piece: Piece, values: &[u16], record: Record, then: Piece) -> Writing {
        let mut copy = [0; 3];
        copy.split_at_mut(values.len()).0.copy_from_slice(values);
        Writing { piece, values: copy, length: values.len(), record, then }
    }

    /// The values written.
    pub const fn values(&self) -> &[u16] {
        self.values.split_at(self.length).0
    }

    /// The link of a final.
    pub const fn link(&self) -> u8 {
        self.record[6]
    }

    /// How many values `rest` and the writing share from their first on.
    pub fn shared_with(&self, rest: &[u16]) -> usize {
        self.values().iter().zip(rest).take_while(|(own, other)| own == other).count()
    }

    /// Whether `rest` begins with the whole writing.
    pub fn begins(&self, rest: &[u16]) -> bool {
        self.shared_with(rest) == self.length
    }
}

/// "Y and R never stand together. That leaves 11 medial groups … Members stand
/// in the order Y R W H, each once." Here by weight, with 0 for no group: "Y 1, R
/// 2, W 3, H 4, YW 5, RW 6, YH 7, RH 8, WH 9, YWH 10, RWH 11."
pub const MEDIAL_GROUPS: [&[u16]; 12] = [
    &[],
    &[MEDIAL_Y],
    &[MEDIAL_R],
    &[MEDIAL_W],
    &[MEDIAL_H],
    &[MEDIAL_Y, MEDIAL_W],
    &[MEDIAL_R, MEDIAL_W],
    &[MEDIAL_Y, MEDIAL_H],
    &[MEDIAL_R, MEDIAL_H],
    &[MEDIAL_W, MEDIAL_H],
    &[MEDIAL_Y, MEDIAL_W, MEDIAL_H],
    &[MEDIAL_R, MEDIAL_W, MEDIAL_H],
];

/// "AA (102B or 102C) 1, 102D 2, 102E 3, 102F 4, 1030 5, 1031 6, 1032 7, 1031 AA
/// 8, 1031 AA 103A 9, 1036 10, 102D 102F 11, 102F 1036 12. No other vowel
/// exists." Here by weight, with 0 for no vowel and 102C for AA.
pub const VOWELS: [&[u16]; 13] = [
    &[],
    &[AA],
    &[MARK_I],
    &[MARK_II],
    &[MARK_U],
    &[MARK_UU],
    &[MARK_E],
    &[MARK_AI],
    &[MARK_E, AA],
    &[MARK_E, AA, KILLER],
    &[MARK_AM],
    &[MARK_I, MARK_U],
    &[MARK_U, MARK_AM],
];

/// The vowels with 102B for AA, each with its weight.
pub const TALL_VOWELS: [(&[u16], u8); 3] =
    [(&[TALL_AA], 1), (&[MARK_E, TALL_AA], 8), (&[MARK_E, TALL_AA, KILLER], 9)];

/// "Tone: 1037 1, 1038 2." Here by weight, with 0 for no tone.
pub const TONES: [&[u16]; 3] = [&[], &[DOT], &[VISARGA]];
