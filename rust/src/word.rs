//! A stored word by value.

use crate::key::Key;
use crate::line::decode;
use crate::record::Record;
use crate::refusal::Refusal;
use crate::storage::normalise;
use crate::text::write_values;
use crate::writing::write;
use std::fmt;
use std::ops::Deref;
use std::str::FromStr;

/// A word in its one stored spelling, together with its key. Words order as the dictionary files
/// them: by key, and words of equal keys by their code values.
///
/// ```
/// use jogcairn::Word;
///
/// let mut parts = Vec::new();
/// for name in ["လေဝင်ပေါက်", "ပန်းကာ", "ပိုက်", "အပူပေးစက်", "ပန်ကာ", "လေအေးပေးစက်"] {
///     parts.push(name.parse::<Word>()?);
/// }
/// parts.sort();
/// let filed: Vec<String> = parts.iter().map(Word::to_string).collect();
/// assert_eq!(filed, ["ပိုက်", "ပန်ကာ", "ပန်းကာ", "လေဝင်ပေါက်", "လေအေးပေးစက်", "အပူပေးစက်"]);
/// # Ok::<(), jogcairn::Refusal>(())
/// ```
// The derived order goes by the fields as they stand here.
#[derive(Clone, PartialEq, Eq, PartialOrd, Ord, Hash)]
pub struct Word {
    key: Key,
    values: Box<[u16]>,
}

impl Word {
    /// Stores a word.
    ///
    /// ```
    /// use jogcairn::Word;
    ///
    /// // The dot typed before the killer, and after it.
    /// let typed = Word::new(&[0x1000, 0x1014, 0x1037, 0x103A])?;
    /// assert_eq!(typed, Word::new(&[0x1000, 0x1014, 0x103A, 0x1037])?);
    /// # Ok::<(), jogcairn::Refusal>(())
    /// ```
    pub fn new(word: &[u16]) -> Result<Word, Refusal> {
        Ok(Word { values: normalise(word)?.into(), key: Key::of(word)? })
    }

    /// Stores the word that has these records.
    ///
    /// ```
    /// use jogcairn::{read, Word};
    ///
    /// let problem: Word = "ပြဿနာ".parse()?;
    /// let records = read(&problem)?.map(|syllable| syllable.record);
    /// assert_eq!(Word::from_records(records)?, problem);
    /// # Ok::<(), jogcairn::Refusal>(())
    /// ```
    pub fn from_records(records: impl IntoIterator<Item = Record>) -> Result<Word, Refusal> {
        let bytes: Vec<u8> = records.into_iter().flat_map(Record::bytes).collect();
        Word::new(&write(&bytes)?)
    }

    /// The stored code values.
    ///
    /// ```
    /// let word = jogcairn::Word::new(&[0x1025, 0x102E])?;
    /// assert_eq!(word.values(), [0x1026]);
    /// # Ok::<(), jogcairn::Refusal>(())
    /// ```
    pub fn values(&self) -> &[u16] {
        &self.values
    }

    /// The key of the word.
    ///
    /// ```
    /// let daughter: jogcairn::Word = "သမီး".parse()?;
    /// assert_eq!(daughter.key().to_string(), "2B0000000000-260000000302");
    /// # Ok::<(), jogcairn::Refusal>(())
    /// ```
    pub fn key(&self) -> &Key {
        &self.key
    }
}

/// A word reads like the slice of its stored values.
impl Deref for Word {
    type Target = [u16];

    fn deref(&self) -> &[u16] {
        &self.values
    }
}

impl AsRef<[u16]> for Word {
    fn as_ref(&self) -> &[u16] {
        &self.values
    }
}

impl TryFrom<&[u16]> for Word {
    type Error = Refusal;

    fn try_from(word: &[u16]) -> Result<Word, Refusal> {
        Word::new(word)
    }
}

/// The stored word as text.
///
/// ```
/// use jogcairn::Word;
///
/// let fan: Word = "ပန်ကာ".parse()?;
/// assert_eq!(String::from(&fan), "ပန်ကာ");
/// assert_eq!(String::from(fan), "ပန်ကာ");
/// # Ok::<(), jogcairn::Refusal>(())
/// ```
impl From<&Word> for String {
    fn from(word: &Word) -> String {
        word.to_string()
    }
}

impl From<Word> for String {
    fn from(word: Word) -> String {
        word.to_string()
    }
}

/// Decodes and stores a line of text.
impl FromStr for Word {
    type Err = Refusal;

    fn from_str(line: &str) -> Result<Word, Refusal> {
        Word::new(&decode(line.as_bytes())?)
    }
}

impl fmt::Display for Word {
    fn fmt(&self, f: &mut fmt::Formatter<'_>) -> fmt::Result {
        write_values(self.values.iter().copied(), f)
    }
}

impl fmt::Debug for Word {
    fn fmt(&self, f: &mut fmt::Formatter<'_>) -> fmt::Result {
        write!(f, "Word({:04X?})", self.values)
    }
}
