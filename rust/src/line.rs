//! Lines of UTF-8 to code values.

use crate::collecting::collected;
use crate::ffi;
use crate::refusal::Refusal;
use crate::WORD_LIMIT;

/// Writes the values of a line of UTF-8 to the front of `word`, and gives their number. The line's
/// end is not part of the line.
///
/// ```
/// let mut word = [0; 4];
/// assert_eq!(jogcairn::decode_into("သမီး".as_bytes(), &mut word)?, 4);
/// assert_eq!(word, [0x101E, 0x1019, 0x102E, 0x1038]);
/// # Ok::<(), jogcairn::Refusal>(())
/// ```
pub fn decode_into(line: &[u8], word: &mut [u16]) -> Result<usize, Refusal> {
    ffi::decode(line, word).one()
}

/// The values of a line of UTF-8: what it says, not yet whether that is a word.
///
/// ```
/// assert_eq!(jogcairn::decode("က္".as_bytes())?, [0x1000, 0x1039]);
/// let refusal = jogcairn::decode("က!".as_bytes()).unwrap_err();
/// assert_eq!(refusal.to_string(), "refusal 7: no letter of three bytes begins at byte 3");
/// # Ok::<(), jogcairn::Refusal>(())
/// ```
pub fn decode(line: &[u8]) -> Result<Vec<u16>, Refusal> {
    collected::<WORD_LIMIT>(|word| decode_into(line, word))
}
