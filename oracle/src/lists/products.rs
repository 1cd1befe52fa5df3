//! Every writing of every piece, each with every writing of another piece.

use crate::formula::writings;
use crate::limits::WORD_LIMIT;
use crate::syllable::{link, Piece, Writing, TONES};

/// What a product gives.
pub type Words = Vec<Vec<u16>>;

/// All products, one after the other.
pub fn words() -> impl Iterator<Item = Vec<u16>> {
    let products: [fn() -> Words; 10] = [
        heads_by_medials,
        markless_by_markless,
        markless_by_finals_by_tones,
        medials_by_vowels_by_tones,
        vowels_by_finals,
        medials_by_finals,
        finals_by_tones,
        stacked_finals_by_heads,
        great_sa_by_medials_by_vowels,
        great_sa_chains,
    ];
    products.into_iter().flat_map(|product| product())
}

/// All writings of the piece.
pub fn of(piece: Piece) -> Vec<&'static Writing> {
    writings(piece).collect()
}

/// The heads after which this piece stands.
pub fn heads_before(then: Piece) -> impl Iterator<Item = &'static Writing> {
    writings(Piece::Head).filter(move |head| head.then == then)
}

/// The values of the parts, one behind the other.
pub fn joined(parts: &[&[u16]]) -> Vec<u16> {
    parts.concat()
}

/// Heads in turn, so that a product does not show one letter only.
pub fn head_in_turn(number: usize) -> [u16; 1] {
    [0x1000 + (number % 34) as u16]
}

/// What a final asks to stand after it, or one more syllable all the same.
pub fn after_final(ending: &Writing, number: usize) -> [u16; 1] {
    match ending.then {
        Piece::GreatSaHead => [0x103F],
        _ => [0x1000 + (number % 33) as u16],
    }
}

/// Whether a tone may stand behind the final.
fn takes_tone(ending: &Writing) -> bool {
    matches!(ending.link(), link::NONE | link::PLAIN)
}

fn heads_by_medials() -> Words {
    let mut words = Words::new();
    for head in heads_before(Piece::MedialGroup) {
        for medial in of(Piece::MedialGroup) {
            words.push(joined(&[head.values(), medial.values()]));
        }
    }
    for head in of(Piece::StackedHead) {
        for medial in of(Piece::MedialGroup) {
            words.push(joined(&[&[0x1010, 0x1000, 0x1039], head.values(), medial.values()]));
        }
    }
    words
}

/// Heads that take no medial and no vowel mark.
pub fn markless() -> impl Iterator<Item = &'static Writing> {
    heads_before(Piece::Head).chain(heads_before(Piece::Final))
}

fn markless_by_markless() -> Words {
    let mut words = Words::new();
    for first in markless() {
        words.push(first.values().to_vec());
        words.extend(markless().map(|second| joined(&[first.values(), second.values()])));
    }
    words
}

/// Each final with one tone of those that it takes, and no final with each.
fn markless_by_finals_by_tones() -> Words {
    let mut words = Words::new();
    for head in heads_before(Piece::Final) {
        for ending in of(Piece::Final) {
            let (tone, next) = (words.len() % TONES.len(), after_final(ending, words.len()));
            let tone = if takes_tone(ending) { TONES[tone] } else { &[] };
            words.push(joined(&[head.values(), ending.values(), tone, &next]));
        }
        words.extend(TONES.map(|tone| joined(&[head.values(), tone])));
    }
    words
}

fn medials_by_vowels_by_tones() -> Words {
    let mut words = Words::new();
    for medial in of(Piece::MedialGroup) {
        for vowel in of(Piece::Vowel) {
            for tone in of(Piece::Tone) {
                let head = head_in_turn(words.len());
                words.push(joined(&[&head, medial.values(), vowel.values(), tone.values()]));
            }
        }
    }
    words
}

fn vowels_by_finals() -> Words {
    let mut words = Words::new();
    for vowel in of(Piece::Vowel) {
        for ending in of(Piece::Final) {
            let (head, next) = (head_in_turn(words.len()), after_final(ending, words.len()));
            words.push(joined(&[&head, vowel.values(), ending.values(), &next]));
        }
    }
    words
}

fn medials_by_finals() -> Words {
    let mut words = Words::new();
    for medial in of(Piece::MedialGroup) {
        for ending in of(Piece::Final) {
            let (head, next) = (head_in_turn(words.len()), after_final(ending, words.len()));
            words.push(joined(&[&head, medial.values(), ending.values(), &next]));
        }
    }
    words
}

fn finals_by_tones() -> Words {
    let mut words = Words::new();
    for ending in of(Piece::Final).into_iter().filter(|ending| takes_tone(ending)) {
        for tone in of(Piece::Tone) {
            let head = head_in_turn(words.len());
            words.push(joined(&[&head, ending.values(), tone.values()]));
        }
    }
    words
}

fn stacked_finals_by_heads() -> Words {
    let mut words = Words::new();
    for ending in of(Piece::Final).into_iter().filter(|ending| ending.link() == link::STACKED) {
        for head in of(Piece::StackedHead) {
            let first = head_in_turn(words.len());
            words.push(joined(&[&first, ending.values(), head.values()]));
        }
    }
    words
}

fn great_sa_by_medials_by_vowels() -> Words {
    let mut words = Words::new();
    for medial in of(Piece::MedialGroup) {
        for vowel in of(Piece::Vowel) {
            let head = head_in_turn(words.len());
            words.push(joined(&[&head, &[0x103F], medial.values(), vowel.values()]));
            words.push(joined(&[&head, medial.values(), vowel.values(), &[0x103F]]));
        }
    }
    words
}

fn great_sa_chains() -> Words {
    (1..WORD_LIMIT).map(|length| joined(&[&head_in_turn(length), &vec![0x103F; length]])).collect()
}
