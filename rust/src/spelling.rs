//! Spelling out: each syllable of a word by itself, each final as a letter and the killer.

use crate::ffi;
use crate::refusal::Refusal;
use crate::{SPELLED_LIMIT, WORD_LIMIT};

/// How much was written to each of the two outputs.
#[derive(Clone, Copy, Debug, PartialEq, Eq, Hash)]
pub struct SpelledLengths {
    /// Values in the first.
    pub values: usize,
    /// Starts of syllables in the second.
    pub starts: usize,
}

/// Writes the spelled syllables of a word, joined, to the front of `values`, and the place there
/// where each begins to the front of `starts`.
///
/// ```
/// let (mut values, mut starts) = ([0; 8], [9; 4]);
/// let lengths =
///     jogcairn::spell_into(&[0x1015, 0x103C, 0x103F, 0x1014, 0x102C], &mut values, &mut starts)?;
/// assert_eq!((lengths.values, lengths.starts), (7, 3));
/// assert_eq!(values, [0x1015, 0x103C, 0x101E, 0x103A, 0x101E, 0x1014, 0x102C, 0]);
/// assert_eq!(starts, [0, 4, 5, 9]);
/// # Ok::<(), jogcairn::Refusal>(())
/// ```
pub fn spell_into(
    word: &[u16],
    values: &mut [u16],
    starts: &mut [u16],
) -> Result<SpelledLengths, Refusal> {
    let (values, starts) = ffi::spell(word, values, starts).two()?;
    Ok(SpelledLengths { values: values as usize, starts })
}

/// The spelled syllables of a word.
///
/// ```
/// // ပြဿနာ, problem.
/// let spelled = jogcairn::spell(&[0x1015, 0x103C, 0x103F, 0x1014, 0x102C])?;
/// let syllables: Vec<&[u16]> = spelled.syllables().collect();
/// assert_eq!(
///     syllables,
///     [&[0x1015, 0x103C, 0x101E, 0x103A][..], &[0x101E], &[0x1014, 0x102C]]
/// );
/// # Ok::<(), jogcairn::Refusal>(())
/// ```
pub fn spell(word: &[u16]) -> Result<Spelled, Refusal> {
    let (mut values, mut starts) = ([0; SPELLED_LIMIT], [0; WORD_LIMIT]);
    let lengths = spell_into(word, &mut values, &mut starts)?;
    Ok(Spelled {
        values: values[..lengths.values].to_vec(),
        starts: starts[..lengths.starts].to_vec(),
    })
}

/// A word spelled out; made by [`spell`].
#[derive(Clone, Debug, PartialEq, Eq, Hash)]
pub struct Spelled {
    values: Vec<u16>,
    starts: Vec<u16>,
}

impl Spelled {
    /// The spelled syllables, joined.
    ///
    /// ```
    /// // အင်္ဂလန်, England: its kinzi is spelled as a letter and the killer.
    /// let england = [0x1021, 0x1004, 0x103A, 0x1039, 0x1002, 0x101C, 0x1014, 0x103A];
    /// assert_eq!(
    ///     jogcairn::spell(&england)?.values(),
    ///     [0x1021, 0x1004, 0x103A, 0x1002, 0x101C, 0x1014, 0x103A]
    /// );
    /// # Ok::<(), jogcairn::Refusal>(())
    /// ```
    pub fn values(&self) -> &[u16] {
        &self.values
    }

    /// Where each spelled syllable begins.
    ///
    /// ```
    /// let england = [0x1021, 0x1004, 0x103A, 0x1039, 0x1002, 0x101C, 0x1014, 0x103A];
    /// assert_eq!(jogcairn::spell(&england)?.starts(), [0, 3, 4]);
    /// # Ok::<(), jogcairn::Refusal>(())
    /// ```
    pub fn starts(&self) -> &[u16] {
        &self.starts
    }

    /// The spelled syllables one by one.
    ///
    /// ```
    /// let spelled = jogcairn::spell(&[0x101E, 0x1019, 0x102E, 0x1038])?;
    /// assert_eq!(spelled.syllables().last(), Some(&[0x1019, 0x102E, 0x1038][..]));
    /// # Ok::<(), jogcairn::Refusal>(())
    /// ```
    pub fn syllables(&self) -> impl Iterator<Item = &[u16]> {
        let starts = self.starts.iter().map(|&start| usize::from(start));
        let ends = starts.clone().skip(1).chain([self.values.len()]);
        starts.zip(ends).map(|(start, end)| &self.values[start..end])
    }
}
