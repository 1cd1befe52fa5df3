//! One input of one call.

use crate::call::Call;
use std::fmt;

/// An input. What the call does not take is empty or 0.
#[derive(Clone, Debug, PartialEq, Eq)]
pub struct Case {
    /// The call.
    pub call: Call,
    /// The word, or the first of two.
    pub word: Vec<u16>,
    /// The second of two words.
    pub second: Vec<u16>,
    /// Records, a line or a book.
    pub bytes: Vec<u8>,
    /// Rooms, a number, a place, a rank, a start or a stock number.
    pub numbers: [usize; 2],
}

impl Case {
    /// The case of a call that takes a word alone.
    pub fn of_word(call: Call, word: Vec<u16>) -> Case {
        Case { call, word, second: Vec::new(), bytes: Vec::new(), numbers: [0; 2] }
    }

    /// The case of a call that takes bytes alone.
    pub fn of_bytes(call: Call, bytes: Vec<u8>) -> Case {
        Case { bytes, ..Case::of_word(call, Vec::new()) }
    }
}

impl fmt::Display for Case {
    fn fmt(&self, f: &mut fmt::Formatter<'_>) -> fmt::Result {
        write!(f, "{}", self.call.name())?;
        if let Some(name) = self.call.row().bytes {
            write!(f, "\n  {name} ({} bytes):", self.bytes.len())?;
            self.bytes.iter().try_for_each(|byte| write!(f, " {byte:02X}"))?;
        }
        for (name, word) in self.call.row().lists.iter().zip([&self.word, &self.second]) {
            write!(f, "\n  {name} ({} values):", word.len())?;
            word.iter().try_for_each(|value| write!(f, " {value:04X}"))?;
        }
        for (name, number) in self.call.number_names().iter().zip(self.numbers) {
            write!(f, "\n  {name}: {number}")?;
        }
        Ok(())
    }
}
