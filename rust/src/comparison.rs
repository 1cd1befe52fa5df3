//! Comparison of two words as they are handed in, and the refusal of a call on two words.

use crate::answer::Answer;
use crate::ffi;
use crate::refusal::Refusal;
use std::cmp::Ordering;
use std::error::Error;
use std::fmt;

/// One of two words.
#[derive(Clone, Copy, Debug, PartialEq, Eq, Hash)]
pub enum Which {
    /// The word handed in first.
    First,
    /// The word handed in second.
    Second,
}

/// A refused call on two words, [`compare`] or [`look_alike`](crate::look_alike). The first word is
/// tested whole before the second.
///
/// ```
/// use jogcairn::{compare, look_alike, Which, LABEL_LIMIT};
///
/// let refused = compare(&[0x1000], &[0x103F]).unwrap_err();
/// assert_eq!(refused.which, Which::Second);
/// assert_eq!(
///     refused.to_string(),
///     "the second word: refusal 3: no word begins with the first value"
/// );
/// assert_eq!(
///     look_alike(&[0x1000; LABEL_LIMIT + 1], &[0x103F]).unwrap_err().to_string(),
///     "the first word: refusal 23: a label has at most 10 syllables"
/// );
/// ```
#[derive(Clone, Copy, Debug, PartialEq, Eq, Hash)]
pub struct ComparisonRefusal {
    /// The word that is refused.
    pub which: Which,
    /// Why.
    pub refusal: Refusal,
}

impl fmt::Display for ComparisonRefusal {
    fn fmt(&self, f: &mut fmt::Formatter<'_>) -> fmt::Result {
        let which = match self.which {
            Which::First => "first",
            Which::Second => "second",
        };
        write!(f, "the {which} word: {}", self.refusal)
    }
}

impl Error for ComparisonRefusal {
    fn source(&self) -> Option<&(dyn Error + 'static)> {
        Some(&self.refusal)
    }
}

/// The answer of a call on two words, where both are accepted.
pub(crate) fn both_accepted(answer: Answer) -> Result<Answer, ComparisonRefusal> {
    let Some((which, refusal)) = answer.refused_word() else { return Ok(answer) };
    answer.demand(which == 1 || which == 2);
    let which = if which == 1 { Which::First } else { Which::Second };
    Err(ComparisonRefusal { which, refusal })
}

/// Compares two words, which are normalised first: by their rows of weights, and then by the code
/// values of their stored forms. Words that are compared often are better held as
/// [`Word`](crate::Word)s.
///
/// ```
/// use std::cmp::Ordering;
///
/// assert_eq!(jogcairn::compare(&[0x1025, 0x102E], &[0x1026])?, Ordering::Equal);
/// // The two AA weigh the same, so that the code values decide.
/// assert_eq!(jogcairn::compare(&[0x1000, 0x102B], &[0x1000, 0x102C])?, Ordering::Less);
/// // So do ဥက် and အုက်.
/// let (with_mark, independent) = ([0x1021, 0x102F, 0x1000, 0x103A], [0x1025, 0x1000, 0x103A]);
/// assert_eq!(jogcairn::compare(&independent, &with_mark)?, Ordering::Greater);
/// # Ok::<(), jogcairn::ComparisonRefusal>(())
/// ```
pub fn compare(first: &[u16], second: &[u16]) -> Result<Ordering, ComparisonRefusal> {
    Ok(both_accepted(ffi::compare(first, second))?.ordering())
}
