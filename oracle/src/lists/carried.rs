//! Heads that take no medial and no vowel mark, with whatever another head carries: most of
//! it is refused.

use super::products::{markless, of};
use crate::syllable::Piece;

/// A final of each kind, with what it asks for and without; and 103F behind a tone.
const FINALS: [&[u16]; 8] = [
    &[0x1000, 0x103A],
    &[0x1000, 0x103A, 0x1038],
    &[0x1000, 0x1039, 0x1000],
    &[0x1000, 0x1039],
    &[0x1004, 0x103A, 0x1039, 0x1002],
    &[0x1004, 0x103A, 0x1039],
    &[0x103F],
    &[0x1038, 0x103F],
];

/// Finals that ask for a letter, each with the syllable that it closes.
const ASKING: [&[u16]; 2] = [&[0x1010, 0x1000, 0x1039], &[0x1025, 0x1004, 0x103A, 0x1039]];

/// Each such head with every medial group, vowel, tone and kind of final, and every head
/// under a final that asks for a letter.
pub fn words() -> impl Iterator<Item = Vec<u16>> {
    let marks = [Piece::MedialGroup, Piece::Vowel, Piece::Tone].into_iter().flat_map(of);
    let marks = marks.map(|writing| writing.values()).filter(|values| !values.is_empty());
    let carried: Vec<&[u16]> = marks.chain(FINALS).collect();
    let heads = markless().flat_map(move |head| {
        let with = |values: &&[u16]| [head.values(), values].concat();
        carried.iter().map(with).collect::<Vec<_>>()
    });
    let under = ASKING.into_iter().flat_map(|before| {
        of(Piece::Head).into_iter().map(move |head| [before, head.values()].concat())
    });
    heads.chain(under)
}
