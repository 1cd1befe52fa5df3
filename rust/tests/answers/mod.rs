//! What the tests ask of an answer.

#![allow(dead_code, reason = "each program of tests asks its part of this")]

use jogcairn::{decode, Added, Book, Key, Refusal, WEIGHTS};

/// The number and the place of a refusal.
pub fn refused<T: std::fmt::Debug>(result: Result<T, Refusal>) -> (u8, usize) {
    let refusal = result.unwrap_err();
    (refusal.number(), refusal.place)
}

/// The answer of an add that puts its record there without tidying.
pub fn put_at(start: usize) -> Result<Added, Refusal> {
    Ok(Added { start, tidied: false })
}

/// The weights of a word, syllable by syllable.
pub fn weights(word: &[u16]) -> Vec<[u8; WEIGHTS]> {
    Key::of(word).unwrap().rows().collect()
}

/// The starts of the records that a text finds by its first syllables.
pub fn found(book: &Book, text: &str) -> Vec<u16> {
    book.find_prefix(&decode(text.as_bytes()).unwrap()).unwrap()
}
