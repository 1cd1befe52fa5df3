//! Storage: a word to its one stored spelling.

use crate::collecting::collected;
use crate::ffi;
use crate::refusal::Refusal;
use crate::WORD_LIMIT;

/// Writes the stored form of a word to the front of `output`, and gives the number of values.
///
/// ```
/// let mut output = [0; 5];
/// assert_eq!(jogcairn::normalise_into(&[0x1000, 0x1014, 0x1037, 0x103A], &mut output)?, 4);
/// assert_eq!(output, [0x1000, 0x1014, 0x103A, 0x1037, 0]);
/// # Ok::<(), jogcairn::Refusal>(())
/// ```
pub fn normalise_into(word: &[u16], output: &mut [u16]) -> Result<usize, Refusal> {
    ffi::normalise(word, output).one()
}

/// The stored form of a word. A [`Word`](crate::Word) holds it together with its key.
///
/// ```
/// assert_eq!(jogcairn::normalise(&[0x1025, 0x102E])?, [0x1026]);
/// # Ok::<(), jogcairn::Refusal>(())
/// ```
pub fn normalise(word: &[u16]) -> Result<Vec<u16>, Refusal> {
    collected::<WORD_LIMIT>(|output| normalise_into(word, output))
}

/// Writes the outcome of the storage rules to the front of `output`, whether or not it is a word,
/// and gives the number of values. Where [`normalise`] refuses with 3 or 4, its place is a place in
/// this.
///
/// ```
/// let mut output = [0; 3];
/// assert_eq!(jogcairn::stored_form_into(&[0x1000, 0x1038, 0x102C], &mut output)?, 3);
/// assert_eq!(output, [0x1000, 0x102C, 0x1038]);
/// # Ok::<(), jogcairn::Refusal>(())
/// ```
pub fn stored_form_into(word: &[u16], output: &mut [u16]) -> Result<usize, Refusal> {
    ffi::stored_form(word, output).one()
}

/// The outcome of the storage rules, whether or not it is a word.
///
/// ```
/// // The killer cannot stand behind 102C: what is stored is refused at its place 2.
/// let typed = [0x1000, 0x103A, 0x102C];
/// assert_eq!(jogcairn::normalise(&typed).unwrap_err().place, 2);
/// assert_eq!(jogcairn::stored_form(&typed)?, [0x1000, 0x102C, 0x103A]);
/// # Ok::<(), jogcairn::Refusal>(())
/// ```
pub fn stored_form(word: &[u16]) -> Result<Vec<u16>, Refusal> {
    collected::<WORD_LIMIT>(|output| stored_form_into(word, output))
}

/// Which value of the word, as it was typed, stands at a place of its stored form: its place in the
/// word. `None` where the stored form ends before the place. A 1026 that was typed as 1025 and 102E
/// is pointed at by its 1025.
///
/// ```
/// // Refused at place 2 of what is stored, where the killer stands that was typed at place 1.
/// let typed = [0x1000, 0x103A, 0x102C];
/// let refusal = jogcairn::normalise(&typed).unwrap_err();
/// assert_eq!(jogcairn::typed_place(&typed, refusal.place)?, Some(1));
/// assert_eq!(jogcairn::typed_place(&typed, 3)?, None);
/// # Ok::<(), jogcairn::Refusal>(())
/// ```
pub fn typed_place(word: &[u16], place: usize) -> Result<Option<usize>, Refusal> {
    ffi::typed_place(word, place).one_or_none()
}
