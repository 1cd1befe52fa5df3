//! Refusals: a number, a place and a sentence.

use crate::{LINE_LIMIT, WORD_LIMIT};
use std::error::Error;
use std::fmt;

/// Why an input is refused.
#[derive(Clone, Copy, Debug, PartialEq, Eq, Hash)]
#[repr(u8)]
#[non_exhaustive]
pub enum Reason {
    /// A word has more than [`WORD_LIMIT`] values, or a line more than [`LINE_LIMIT`] bytes. The
    /// place is [`WORD_LIMIT`].
    TooLong = 1,
    /// A value is none of those admitted. The place is the first such value's.
    Foreign = 2,
    /// Nothing put after the word makes it one. The place is the length of the longest beginning
    /// that can still be continued to a word.
    NoContinuation = 3,
    /// The word is none yet, but can be continued to one. The place is its length.
    Unfinished = 4,
    /// An output is too short. The place is the number of values, bytes or starts needed.
    OutputTooShort = 5,
    /// No word of at most [`WORD_LIMIT`] values has these records. The place is 0.
    NoSuchRow = 6,
    /// A line is not made of letters of three bytes. The place is the byte where the first faulty
    /// three begins.
    FaultyLine = 7,
    /// A word without values was handed to a book. The place is 0.
    EmptyWord = 8,
    /// The bytes are no book. The place is the byte where they stop being one;
    /// [`BOOK_LIMIT`](crate::BOOK_LIMIT) where they are too many.
    NotABook = 11,
    /// The word to be added is live already. The place is the start of its record.
    AlreadyLive = 12,
    /// No live record has the word. The place is 0.
    NotLive = 13,
    /// The live records and the new one together pass the end of the bytes. The place is the live
    /// length, the sum of the live records' bytes.
    BookFull = 14,
    /// The rank is not below the number of live records. The place is that number.
    RankTooHigh = 15,
    /// A word that is to be a label has a stop or a sign. The place is the first one's, in the
    /// stored form.
    StopOrSign = 21,
    /// A word that is to be a label has a 1040 or a 1047 next to a value that is no digit. The
    /// place is that of the first such 1040 or 1047, in the stored form.
    ConfusableDigit = 22,
    /// A word that is to be a label has more syllables than [`LABEL_LIMIT`](crate::LABEL_LIMIT),
    /// which is the place.
    TooManySyllables = 23,
}

impl Reason {
    const ALL: [Reason; 16] = [
        Reason::TooLong,
        Reason::Foreign,
        Reason::NoContinuation,
        Reason::Unfinished,
        Reason::OutputTooShort,
        Reason::NoSuchRow,
        Reason::FaultyLine,
        Reason::EmptyWord,
        Reason::NotABook,
        Reason::AlreadyLive,
        Reason::NotLive,
        Reason::BookFull,
        Reason::RankTooHigh,
        Reason::StopOrSign,
        Reason::ConfusableDigit,
        Reason::TooManySyllables,
    ];

    /// The number of the refusal.
    ///
    /// ```
    /// assert_eq!(jogcairn::Reason::NotABook.number(), 11);
    /// ```
    pub const fn number(self) -> u8 {
        self as u8
    }

    /// The reason that has this number.
    pub(crate) fn of_number(number: u8) -> Option<Reason> {
        Reason::ALL.into_iter().find(|reason| reason.number() == number)
    }
}

/// The reason that has a refusal's number.
///
/// ```
/// use jogcairn::{Reason, UnknownNumber};
///
/// assert_eq!(Reason::try_from(14), Ok(Reason::BookFull));
/// assert_eq!(Reason::try_from(9), Err(UnknownNumber(9)));
/// ```
impl TryFrom<u8> for Reason {
    type Error = UnknownNumber;

    fn try_from(number: u8) -> Result<Reason, UnknownNumber> {
        Reason::of_number(number).ok_or(UnknownNumber(number))
    }
}

/// A number that no refusal has.
#[derive(Clone, Copy, Debug, PartialEq, Eq, Hash)]
pub struct UnknownNumber(pub u8);

impl fmt::Display for UnknownNumber {
    fn fmt(&self, f: &mut fmt::Formatter<'_>) -> fmt::Result {
        write!(f, "no refusal has the number {}", self.0)
    }
}

impl Error for UnknownNumber {}

/// A refused input: why, and where. A refusal changes nothing that was lent.
///
/// ```
/// use jogcairn::{read, Reason, Refusal};
///
/// let refusal = read(&[0x1000, 0x103B, 0x103C]).unwrap_err();
/// assert_eq!(refusal, Refusal { reason: Reason::NoContinuation, place: 2 });
/// assert_eq!(
///     refusal.to_string(),
///     "refusal 3: the first 2 values can be continued to a word, and no more"
/// );
/// ```
#[derive(Clone, Copy, Debug, PartialEq, Eq, Hash)]
pub struct Refusal {
    /// Why.
    pub reason: Reason,
    /// Where, or how many: each [`Reason`] says what its place is.
    pub place: usize,
}

impl Refusal {
    /// The number of the refusal.
    ///
    /// ```
    /// let unfinished = jogcairn::read(&[0x1000, 0x1000, 0x1039]).unwrap_err();
    /// assert_eq!((unfinished.number(), unfinished.place), (4, 3));
    /// ```
    pub const fn number(&self) -> u8 {
        self.reason.number()
    }
}

impl fmt::Display for Refusal {
    fn fmt(&self, f: &mut fmt::Formatter<'_>) -> fmt::Result {
        let place = self.place;
        write!(f, "refusal {}: ", self.number())?;
        match self.reason {
            Reason::TooLong => {
                write!(
                    f,
                    "a word has at most {WORD_LIMIT} values, a line at most {LINE_LIMIT} bytes"
                )
            }
            Reason::Foreign => write!(f, "the value at place {place} is not admitted in a word"),
            Reason::NoContinuation => match place {
                0 => f.write_str("no word begins with the first value"),
                1 => f.write_str("the first value can be continued to a word, and no more"),
                _ => write!(f, "the first {place} values can be continued to a word, and no more"),
            },
            Reason::Unfinished => {
                write!(f, "the {place} values can be continued to a word, but are none yet")
            }
            Reason::OutputTooShort => {
                write!(
                    f,
                    "the output is too short, since {place} values, bytes or starts are needed"
                )
            }
            Reason::NoSuchRow => {
                write!(f, "no word of at most {WORD_LIMIT} values has these records")
            }
            Reason::FaultyLine => write!(f, "no letter of three bytes begins at byte {place}"),
            Reason::EmptyWord => f.write_str("a book keeps no word without values"),
            Reason::NotABook => write!(f, "the bytes stop being a book at byte {place}"),
            Reason::AlreadyLive => {
                write!(f, "the word is live already, in the record that starts at byte {place}")
            }
            Reason::NotLive => f.write_str("no live record has the word"),
            Reason::BookFull => {
                write!(f, "the record does not fit behind the {place} bytes of the live records")
            }
            Reason::RankTooHigh => {
                write!(f, "the rank is not below {place}, the number of live records")
            }
            Reason::StopOrSign => {
                write!(f, "the value at place {place} of the stored form is a stop or a sign")
            }
            Reason::ConfusableDigit => {
                write!(
                    f,
                    "the 1040 or 1047 at place {place} of the stored form stands next to a value \
                     that is no digit"
                )
            }
            Reason::TooManySyllables => write!(f, "a label has at most {place} syllables"),
        }
    }
}

impl Error for Refusal {}

#[cfg(test)]
mod tests {
    use super::*;

    #[test]
    fn each_number_of_a_refusal_has_its_reason() {
        let numbers: Vec<u8> = (0..=u8::MAX).filter(|&n| Reason::of_number(n).is_some()).collect();
        assert_eq!(numbers, [1, 2, 3, 4, 5, 6, 7, 8, 11, 12, 13, 14, 15, 21, 22, 23]);
    }

    #[test]
    fn each_refusal_has_one_sentence_of_its_own() {
        let sentence = |reason| Refusal { reason, place: 7 }.to_string();
        for reason in Reason::ALL {
            let text = sentence(reason);
            assert!(text.starts_with(&format!("refusal {}: ", reason.number())));
            assert_eq!(Reason::ALL.into_iter().filter(|&other| sentence(other) == text).count(), 1);
        }
    }

    #[test]
    fn a_place_is_counted_in_words() {
        let sentence = |place| Refusal { reason: Reason::NoContinuation, place }.to_string();
        assert_eq!(sentence(0), "refusal 3: no word begins with the first value");
        assert_eq!(
            sentence(1),
            "refusal 3: the first value can be continued to a word, and no more"
        );
    }
}
