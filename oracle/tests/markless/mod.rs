//! Syllables whose heads take no medial and no vowel mark, but a final and a tone.

use oracle::reading::Syllable;
use oracle::storage::store;
use std::collections::BTreeSet;

/// The head, the link of its final, whether a second final stands there, and whether it has
/// a tone.
pub type Kind = (u16, u8, bool, bool);

/// The kinds of such syllables in those of the words that are readable.
pub fn kinds_in(words: impl Iterator<Item = Vec<u16>>) -> BTreeSet<Kind> {
    let mut kinds = BTreeSet::new();
    for stored in words.filter_map(|word| store(&word).ok()) {
        for Syllable { record, .. } in stored.reading.syllables() {
            let [head, _, _, _, _, second, link, tone] = *record;
            kinds.insert((0x1000 + u16::from(head), link, second > 0, tone > 0));
        }
    }
    kinds.retain(|(head, ..)| matches!(head, 0x1023..=0x102A | 0x104E));
    kinds
}

/// Link, second final and tone, in every way that they stand together.
const ENDS: [(u8, bool, bool); 8] = [
    (0, false, false),
    (0, false, true),
    (1, false, false),
    (1, false, true),
    (1, true, false),
    (1, true, true),
    (2, false, false),
    (3, false, false),
];

/// All kinds that there are.
pub fn kinds() -> BTreeSet<Kind> {
    let heads = [0x1023, 0x1024, 0x1025, 0x1026, 0x1027, 0x1029, 0x102A, 0x104E];
    heads
        .into_iter()
        .flat_map(|head| ENDS.map(|(link, second, tone)| (head, link, second, tone)))
        .collect()
}
