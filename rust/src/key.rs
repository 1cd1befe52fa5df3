//! Collation keys.

use crate::ffi;
use crate::refusal::Refusal;
use crate::{KEY_SIZE, WEIGHTS};
use std::fmt;

/// Writes the key of a word, which is normalised first, to the front of `key`: [`KEY_SIZE`] bytes,
/// [`WEIGHTS`] a syllable and then zeros. Gives the number of syllables.
///
/// ```
/// use jogcairn::{key_into, Reason, KEY_SIZE};
///
/// let mut key = [0xFF; KEY_SIZE];
/// assert_eq!(key_into(&[0x101E, 0x1019, 0x102E, 0x1038], &mut key)?, 2);
/// assert_eq!(key[..13], [43, 0, 0, 0, 0, 0, 38, 0, 0, 0, 3, 2, 0]);
/// let refusal = key_into(&[0x1000], &mut key[..KEY_SIZE - 1]).unwrap_err();
/// assert_eq!((refusal.reason, refusal.place), (Reason::OutputTooShort, KEY_SIZE));
/// # Ok::<(), jogcairn::Refusal>(())
/// ```
pub fn key_into(word: &[u16], key: &mut [u8]) -> Result<usize, Refusal> {
    ffi::key(word, key).one()
}

/// The collation key of a word. Keys order as the words' rows of weights do, a row before every
/// longer one that begins with it.
///
/// ```
/// use jogcairn::Key;
///
/// // The final is weighed before the vowel.
/// let with_vowel = Key::of(&[0x1000, 0x102C])?;
/// let with_final = Key::of(&[0x1000, 0x1000, 0x103A])?;
/// assert!(with_vowel < with_final);
/// assert!(Key::of(&[0x1000])? < with_vowel);
/// # Ok::<(), jogcairn::Refusal>(())
/// ```
// The used bytes alone: no head weighs 0, so that they order as the rows do.
#[derive(Clone, PartialEq, Eq, PartialOrd, Ord, Hash)]
pub struct Key(Box<[u8]>);

impl Key {
    /// The key of a word, which is normalised first.
    ///
    /// ```
    /// // ပိုက်, pipe.
    /// let key = jogcairn::Key::of(&[0x1015, 0x102D, 0x102F, 0x1000, 0x103A])?;
    /// assert_eq!(key.rows().collect::<Vec<_>>(), [[0x22, 0, 1, 0, 11, 0]]);
    /// # Ok::<(), jogcairn::Refusal>(())
    /// ```
    pub fn of(word: &[u16]) -> Result<Key, Refusal> {
        let mut key = [0; KEY_SIZE];
        let count = key_into(word, &mut key)?;
        Ok(Key(key[..WEIGHTS * count].into()))
    }

    /// The key that has these used bytes, [`WEIGHTS`] a syllable, as [`as_bytes`](Key::as_bytes) gave
    /// them; nothing for bytes that no key has so: a length that is no multiple of [`WEIGHTS`] or is
    /// over [`KEY_SIZE`], or a head that weighs 0.
    ///
    /// ```
    /// use jogcairn::Key;
    ///
    /// let key = Key::of(&[0x1000, 0x102C])?;
    /// assert_eq!(Key::from_bytes(key.as_bytes()), Some(key));
    /// assert_eq!(Key::from_bytes(&[13, 0, 0, 1, 0]), None);
    /// assert_eq!(Key::from_bytes(&[0, 0, 0, 0, 1, 0]), None);
    /// # Ok::<(), jogcairn::Refusal>(())
    /// ```
    pub fn from_bytes(bytes: &[u8]) -> Option<Key> {
        let (rows, rest) = bytes.as_chunks::<WEIGHTS>();
        let whole = rest.is_empty() && bytes.len() <= KEY_SIZE;
        (whole && rows.iter().all(|row| row[0] != 0)).then(|| Key(bytes.into()))
    }

    /// The used bytes, [`WEIGHTS`] a syllable.
    ///
    /// ```
    /// assert_eq!(jogcairn::Key::of(&[0x1000])?.as_bytes(), [13, 0, 0, 0, 0, 0]);
    /// # Ok::<(), jogcairn::Refusal>(())
    /// ```
    pub fn as_bytes(&self) -> &[u8] {
        &self.0
    }

    /// The number of syllables.
    ///
    /// ```
    /// use jogcairn::{Key, WORD_LIMIT};
    ///
    /// assert_eq!(Key::of(&[0x1000; WORD_LIMIT])?.count(), WORD_LIMIT);
    /// # Ok::<(), jogcairn::Refusal>(())
    /// ```
    pub fn count(&self) -> usize {
        self.0.len() / WEIGHTS
    }

    /// The weights of each syllable: head, medial, final, second final, vowel, tone. An independent
    /// vowel weighs as its mark on အ, whatever finals and tone it has.
    ///
    /// ```
    /// use jogcairn::Key;
    ///
    /// let key = Key::of(&[0x101E, 0x1019, 0x102E, 0x1038])?;
    /// assert_eq!(key.rows().last(), Some([38, 0, 0, 0, 3, 2]));
    /// // ဥက္က, and အုက္က with the same weights.
    /// let key = Key::of(&[0x1025, 0x1000, 0x1039, 0x1000])?;
    /// assert_eq!(key.rows().collect::<Vec<_>>(), [[46, 0, 1, 0, 4, 0], [13, 0, 0, 0, 0, 0]]);
    /// assert_eq!(key, Key::of(&[0x1021, 0x102F, 0x1000, 0x1039, 0x1000])?);
    /// // ဘတ်စ်, a brand name with two finals.
    /// let key = Key::of(&[0x1018, 0x1010, 0x103A, 0x1005, 0x103A])?;
    /// assert_eq!(key.rows().collect::<Vec<_>>(), [[37, 0, 17, 6, 0, 0]]);
    /// # Ok::<(), jogcairn::Refusal>(())
    /// ```
    pub fn rows(&self) -> impl ExactSizeIterator<Item = [u8; WEIGHTS]> + '_ {
        self.0.as_chunks().0.iter().copied()
    }
}

impl AsRef<[u8]> for Key {
    fn as_ref(&self) -> &[u8] {
        &self.0
    }
}

/// Upper-case hexadecimal with hyphens between syllables, as `wordlist` prints it; one hyphen for
/// no syllables.
impl fmt::Display for Key {
    fn fmt(&self, f: &mut fmt::Formatter<'_>) -> fmt::Result {
        if self.0.is_empty() {
            return f.write_str("-");
        }
        for (number, row) in self.rows().enumerate() {
            f.write_str(if number == 0 { "" } else { "-" })?;
            for weight in row {
                write!(f, "{weight:02X}")?;
            }
        }
        Ok(())
    }
}

impl fmt::Debug for Key {
    fn fmt(&self, f: &mut fmt::Formatter<'_>) -> fmt::Result {
        write!(f, "Key({self})")
    }
}

#[cfg(test)]
mod tests {
    use super::*;

    #[test]
    fn a_key_is_shown_as_the_word_list_prints_it() {
        let university = [0x1010, 0x1000, 0x1039, 0x1000, 0x101E, 0x102D, 0x102F, 0x101C, 0x103A];
        assert_eq!(
            Key::of(&university).unwrap().to_string(),
            "1D0001000000-0D0000000000-2B001D000B00"
        );
        assert_eq!(Key::of(&[]).unwrap().to_string(), "-");
    }
}
