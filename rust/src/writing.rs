//! Writing: records to the word that has them.

use crate::collecting::collected;
use crate::ffi;
use crate::refusal::Refusal;
use crate::WORD_LIMIT;

/// Writes the word that has these records, [`RECORD_SIZE`](crate::RECORD_SIZE) bytes a syllable in
/// word order, to the front of `word`, and gives the number of values.
///
/// ```
/// use jogcairn::{write_into, Reason};
///
/// let mut word = [0; 3];
/// assert_eq!(write_into(&[0x19, 0, 3, 0, 0, 0, 0, 2], &mut word)?, 3);
/// assert_eq!(word, [0x1019, 0x102E, 0x1038]);
/// let refusal = write_into(&[0x19, 0, 3, 0, 0, 0, 0, 2], &mut word[..2]).unwrap_err();
/// assert_eq!((refusal.reason, refusal.place), (Reason::OutputTooShort, 3));
/// # Ok::<(), jogcairn::Refusal>(())
/// ```
pub fn write_into(records: &[u8], word: &mut [u16]) -> Result<usize, Refusal> {
    ffi::write(records, word).one()
}

/// The word that has these records. Writing gives back each word that was read.
///
/// ```
/// let word = [0x1015, 0x103C, 0x103F, 0x1014, 0x102C];
/// let records: Vec<u8> =
///     jogcairn::read(&word)?.flat_map(|syllable| syllable.record.bytes()).collect();
/// assert_eq!(jogcairn::write(&records)?, word);
/// // A tone of weight 3 does not exist.
/// assert_eq!(jogcairn::write(&[0, 0, 0, 0, 0, 0, 0, 3]).unwrap_err().number(), 6);
/// # Ok::<(), jogcairn::Refusal>(())
/// ```
pub fn write(records: &[u8]) -> Result<Vec<u16>, Refusal> {
    collected::<WORD_LIMIT>(|word| write_into(records, word))
}
