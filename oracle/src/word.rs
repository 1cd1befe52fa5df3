//! A word held by value.

use crate::limits::WORD_LIMIT;
use crate::refusal::Refusal;
use std::ops::Deref;

/// A list of at most [`WORD_LIMIT`] code values; it reads like a slice.
#[derive(Clone, Copy, Debug)]
pub struct Word {
    values: [u16; WORD_LIMIT],
    length: usize,
}

impl Word {
    /// The word without values.
    pub const fn empty() -> Word {
        Word { values: [0; WORD_LIMIT], length: 0 }
    }

    /// A copy of `values`, or nothing where they pass the limit.
    pub fn copy_of(values: &[u16]) -> Option<Word> {
        let mut word = Word::empty();
        word.extend(values)?;
        Some(word)
    }

    /// Puts `more` at the end, or answers nothing where that passes the limit.
    pub fn extend(&mut self, more: &[u16]) -> Option<()> {
        let end = self.length + more.len();
        self.values.get_mut(self.length..end)?.copy_from_slice(more);
        self.length = end;
        Some(())
    }

    /// The values, to be changed in place.
    pub fn values_mut(&mut self) -> &mut [u16] {
        &mut self.values[..self.length]
    }

    /// Keeps the first `length` values.
    pub fn shorten(&mut self, length: usize) {
        self.length = self.length.min(length);
    }
}

impl Deref for Word {
    type Target = [u16];

    fn deref(&self) -> &[u16] {
        &self.values[..self.length]
    }
}

/// "Success writes what it needs at the front of an output, the rest untouched,
/// and tells how many values or bytes it wrote to each."
pub fn hand_out<T: Copy>(items: &[T], output: &mut [T]) -> Result<usize, Refusal> {
    let front = output.get_mut(..items.len()).ok_or(Refusal::output_too_short(items.len()))?;
    front.copy_from_slice(items);
    Ok(items.len())
}
