//! What a call answers and leaves behind.

use crate::lent::{Memory, MARGIN};
use std::fmt;

/// An answer in numbers.
#[derive(Clone, Debug, PartialEq, Eq)]
pub enum Answer {
    /// The numbers of an accepted input.
    Accepted(Vec<u64>),
    /// There is nothing of the number asked for, which is no refusal.
    Nothing,
    /// A refusal.
    Refused {
        /// Its number.
        number: u8,
        /// Its place.
        place: usize,
        /// The refused word where there are two, 1 or 2; else 0.
        which: u8,
    },
    /// A preview.
    Previewed {
        /// The answer that an add would have.
        add: Box<Answer>,
        /// Where the record would start; 0 where the add would be refused.
        start: usize,
        /// Whether the book would be tidied.
        tidies: bool,
    },
    /// No answer: the call ended in a panic.
    Panicked(String),
}

impl Answer {
    /// The answer itself; of a preview, the answer of the add.
    pub fn of_add(&self) -> &Answer {
        match self {
            Answer::Previewed { add, .. } => add,
            answer => answer,
        }
    }

    /// The tag: 0 for accepted, a refusal number, 128 for nothing.
    pub fn tag(&self) -> Option<u8> {
        match self {
            Answer::Accepted(_) => Some(0),
            Answer::Refused { number, .. } => Some(*number),
            Answer::Nothing => Some(128),
            Answer::Previewed { add, .. } => add.tag(),
            Answer::Panicked(_) => None,
        }
    }
}

impl fmt::Display for Answer {
    fn fmt(&self, f: &mut fmt::Formatter<'_>) -> fmt::Result {
        match self {
            Answer::Accepted(numbers) => {
                f.write_str("accepted")?;
                numbers.iter().try_for_each(|number| write!(f, " {number:X}"))
            }
            Answer::Nothing => f.write_str("nothing"),
            Answer::Refused { number, place, which: 0 } => write!(f, "refused {number} at {place}"),
            Answer::Refused { number, place, which } => {
                write!(f, "word {which} refused {number} at {place}")
            }
            Answer::Previewed { add, start, tidies } => {
                write!(f, "{add}; start {start}, {}", if *tidies { "tidies" } else { "no tidying" })
            }
            Answer::Panicked(message) => write!(f, "panicked: {message}"),
        }
    }
}

/// The answer, and the end state of everything that was lent, in the order of the parameters.
#[derive(Clone, PartialEq, Eq)]
pub struct Outcome {
    /// The answer.
    pub answer: Answer,
    /// What was lent.
    pub lent: Vec<Memory>,
}

impl Outcome {
    /// Whether two libraries agree: both have an answer, and it is the same, as is what they leave
    /// behind. A panic is no answer, so two that panic with one message do not agree.
    pub fn agrees_with(&self, other: &Outcome) -> bool {
        !matches!(self.answer, Answer::Panicked(_)) && self == other
    }

    /// What is told of this outcome where it differs from another: the answer, and the first cells
    /// that differ.
    pub fn beside(&self, other: &Outcome) -> String {
        let mut text = self.answer.to_string();
        for (number, (own, others)) in self.lent.iter().zip(&other.lent).enumerate() {
            if own == others {
                continue;
            }
            let (own, others) = (own.digits(), others.digits());
            let at = own.iter().zip(&others).position(|(own, other)| own != other);
            let at = at.unwrap_or(own.len().min(others.len()));
            let end = own.len().min(at + MARGIN);
            let place = at as isize - MARGIN as isize;
            text += &format!(
                "\n    argument {number} from cell {place} on: {}",
                own[at..end].join(" ")
            );
        }
        text
    }
}
