//! Reading: a word to its syllables.

use crate::ffi;
use crate::record::Record;
use crate::refusal::Refusal;
use crate::RECORD_SIZE;
use std::iter::FusedIterator;
use std::ops::Range;

/// Reads a word as it is handed in, and gives its syllables in order.
///
/// ```
/// use jogcairn::read;
///
/// // တက္ကသိုလ်, university.
/// let word = [0x1010, 0x1000, 0x1039, 0x1000, 0x101E, 0x102D, 0x102F, 0x101C, 0x103A];
/// let syllables = read(&word)?;
/// assert_eq!(syllables.len(), 3);
/// let parts: Vec<&[u16]> = syllables.map(|syllable| syllable.part).collect();
/// assert_eq!(parts, [&word[..3], &word[3..4], &word[4..]]);
///
/// assert_eq!(read(&[])?.len(), 0);
/// assert_eq!(read(&[0x1000, 0x1039]).unwrap_err().place, 1);
/// # Ok::<(), jogcairn::Refusal>(())
/// ```
pub fn read(word: &[u16]) -> Result<Syllables<'_>, Refusal> {
    let count = ffi::read(word).one()?;
    Ok(Syllables { word, numbers: 0..count })
}

/// Writes the record of a syllable by its number, from 0, to the front of `output`, and gives the
/// number of bytes; `None` where the word has no such syllable, however short the output is.
///
/// ```
/// use jogcairn::{record_into, Reason, RECORD_SIZE};
///
/// // ဘတ်စ်, a brand name: one syllable with two finals.
/// let word = [0x1018, 0x1010, 0x103A, 0x1005, 0x103A];
/// let mut output = [0xFF; RECORD_SIZE + 1];
/// assert_eq!(record_into(&word, 0, &mut output)?, Some(RECORD_SIZE));
/// assert_eq!(output, [0x18, 0, 0, 0, 17, 6, 1, 0, 0xFF]);
/// assert_eq!(record_into(&word, 1, &mut [])?, None);
/// let refusal = record_into(&word, 0, &mut output[..RECORD_SIZE - 1]).unwrap_err();
/// assert_eq!((refusal.reason, refusal.place), (Reason::OutputTooShort, RECORD_SIZE));
/// # Ok::<(), jogcairn::Refusal>(())
/// ```
pub fn record_into(
    word: &[u16],
    number: usize,
    output: &mut [u8],
) -> Result<Option<usize>, Refusal> {
    ffi::record(word, number, output).one_or_none()
}

/// The record of a syllable by its number, from 0; nothing where the word has no such syllable.
///
/// ```
/// // သမီး, daughter.
/// let word = [0x101E, 0x1019, 0x102E, 0x1038];
/// assert_eq!(jogcairn::record(&word, 1)?.unwrap().bytes(), [0x19, 0, 3, 0, 0, 0, 0, 2]);
/// assert_eq!(jogcairn::record(&word, 2)?, None);
/// # Ok::<(), jogcairn::Refusal>(())
/// ```
pub fn record(word: &[u16], number: usize) -> Result<Option<Record>, Refusal> {
    let mut bytes = [0; RECORD_SIZE];
    let written = record_into(word, number, &mut bytes)?;
    Ok(written.map(|_| Record::from_bytes(bytes)))
}

/// The part of the word that a syllable is, by its number, from 0; nothing where the word has no
/// such syllable.
///
/// ```
/// let word = [0x101E, 0x1019, 0x102E, 0x1038];
/// assert_eq!(jogcairn::part(&word, 1)?, Some(&word[1..]));
/// assert_eq!(jogcairn::part(&word, 2)?, None);
/// # Ok::<(), jogcairn::Refusal>(())
/// ```
pub fn part(word: &[u16], number: usize) -> Result<Option<&[u16]>, Refusal> {
    let syllable = ffi::part(word, number).two_or_none()?;
    Ok(syllable.map(|(place, length)| &word[place as usize..][..length]))
}

/// One syllable of a word.
#[derive(Clone, Copy, Debug, PartialEq, Eq, Hash)]
pub struct Syllable<'w> {
    /// The syllable's part of the word. The parts joined are the word.
    pub part: &'w [u16],
    /// The numbers of the syllable's pieces.
    pub record: Record,
}

/// The syllables of a word that was read, in their order; made by [`read`]. Each step asks the
/// library for one syllable, for which it reads the word anew.
///
/// ```
/// // ပြဿနာ, problem, from its last syllable to its first.
/// let word = [0x1015, 0x103C, 0x103F, 0x1014, 0x102C];
/// let heads: Vec<u16> = jogcairn::read(&word)?.rev().map(|found| found.record.head()).collect();
/// assert_eq!(heads, [0x1014, 0x101E, 0x1015]);
/// # Ok::<(), jogcairn::Refusal>(())
/// ```
#[derive(Clone, Debug)]
pub struct Syllables<'w> {
    word: &'w [u16],
    numbers: Range<usize>,
}

impl<'w> Syllables<'w> {
    /// The syllable of a number below the count, for which record and part are there.
    fn syllable(word: &'w [u16], number: usize) -> Syllable<'w> {
        match (part(word, number), record(word, number)) {
            (Ok(Some(part)), Ok(Some(record))) => Syllable { part, record },
            _ => unreachable!("a word that was read has its syllable {number}"),
        }
    }
}

impl<'w> Iterator for Syllables<'w> {
    type Item = Syllable<'w>;

    fn next(&mut self) -> Option<Syllable<'w>> {
        self.numbers.next().map(|number| Syllables::syllable(self.word, number))
    }

    fn size_hint(&self) -> (usize, Option<usize>) {
        self.numbers.size_hint()
    }

    fn nth(&mut self, skipped: usize) -> Option<Syllable<'w>> {
        self.numbers.nth(skipped).map(|number| Syllables::syllable(self.word, number))
    }
}

impl DoubleEndedIterator for Syllables<'_> {
    fn next_back(&mut self) -> Option<Self::Item> {
        self.numbers.next_back().map(|number| Syllables::syllable(self.word, number))
    }
}

impl ExactSizeIterator for Syllables<'_> {}

impl FusedIterator for Syllables<'_> {}
