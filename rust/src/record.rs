//! The bytes of a syllable.

use crate::RECORD_SIZE;

/// A syllable by the numbers of its pieces, in [`RECORD_SIZE`] bytes: what the reader hands back and
/// the writer takes.
///
/// ```
/// use jogcairn::{read, Link};
///
/// // The first syllable of တက္ကသိုလ် has the final က, which the next letter stands under.
/// let word = [0x1010, 0x1000, 0x1039, 0x1000, 0x101E, 0x102D, 0x102F, 0x101C, 0x103A];
/// let first = read(&word)?.next().unwrap().record;
/// assert_eq!(first.head(), 0x1010);
/// assert_eq!(first.final_letter(), Some(0x1000));
/// assert_eq!(first.link(), Some(Link::Stacked));
/// assert_eq!(first.bytes(), [0x10, 0, 0, 0, 1, 0, 2, 0]);
/// # Ok::<(), jogcairn::Refusal>(())
/// ```
///
/// A second final stands behind a plain one alone, and the link is that of both. Behind an
/// independent vowel and behind 104E, medial, vowel and tall are 0; behind a digit, a stop or
/// another sign all seven bytes are.
#[derive(Clone, Copy, Debug, PartialEq, Eq, Hash)]
pub struct Record([u8; RECORD_SIZE]);

/// How a final is written.
#[derive(Clone, Copy, Debug, PartialEq, Eq, Hash)]
pub enum Link {
    /// The letter and the killer 103A, for one final or for two.
    Plain,
    /// The letter and the stacker 1039, or kinzi.
    Stacked,
    /// The great sa 103F, which is also the next syllable's head.
    GreatSa,
}

impl Record {
    /// The record with these bytes. Whether a syllable has it, the writer tells.
    ///
    /// ```
    /// use jogcairn::{write, Record, RECORD_SIZE};
    ///
    /// let ka = Record::from_bytes([0; RECORD_SIZE]);
    /// assert_eq!(write(&ka.bytes())?, [0x1000]);
    /// # Ok::<(), jogcairn::Refusal>(())
    /// ```
    pub const fn from_bytes(bytes: [u8; RECORD_SIZE]) -> Record {
        Record(bytes)
    }

    /// The bytes: head, medial, vowel, tall, final, second final, link and tone.
    ///
    /// ```
    /// let ka_with_visarga = [0, 0, 0, 0, 0, 0, 0, 2];
    /// assert_eq!(jogcairn::Record::from_bytes(ka_with_visarga).bytes(), ka_with_visarga);
    /// ```
    pub const fn bytes(self) -> [u8; RECORD_SIZE] {
        self.0
    }

    /// The head as a code value; 101E where the great sa begins the syllable.
    ///
    /// ```
    /// // ပြဿနာ: its second syllable begins with the great sa.
    /// let record = jogcairn::record(&[0x1015, 0x103C, 0x103F, 0x1014, 0x102C], 1)?.unwrap();
    /// assert_eq!(record.head(), 0x101E);
    /// # Ok::<(), jogcairn::Refusal>(())
    /// ```
    pub const fn head(self) -> u16 {
        0x1000 + self.0[0] as u16
    }

    /// The weight of the medial group; 0 for none.
    ///
    /// ```
    /// let record = jogcairn::record(&[0x1015, 0x103C, 0x103F, 0x1014, 0x102C], 0)?.unwrap();
    /// assert_eq!(record.medial(), 2);
    /// # Ok::<(), jogcairn::Refusal>(())
    /// ```
    pub const fn medial(self) -> u8 {
        self.0[1]
    }

    /// The weight of the vowel; 0 for none, and for an independent vowel, whose key has its weight.
    ///
    /// ```
    /// let record = jogcairn::record(&[0x101E, 0x1019, 0x102E, 0x1038], 1)?.unwrap();
    /// assert_eq!(record.vowel(), 3);
    /// // ဩး
    /// assert_eq!(jogcairn::record(&[0x1029, 0x1038], 0)?.unwrap().vowel(), 0);
    /// # Ok::<(), jogcairn::Refusal>(())
    /// ```
    pub const fn vowel(self) -> u8 {
        self.0[2]
    }

    /// Whether the AA of the vowel is the tall one.
    ///
    /// ```
    /// assert!(jogcairn::record(&[0x1015, 0x102B], 0)?.unwrap().is_tall());
    /// assert!(!jogcairn::record(&[0x1014, 0x102C], 0)?.unwrap().is_tall());
    /// # Ok::<(), jogcairn::Refusal>(())
    /// ```
    pub const fn is_tall(self) -> bool {
        self.0[3] != 0
    }

    /// The letter of the final as a code value.
    ///
    /// ```
    /// let lan = jogcairn::record(&[0x101C, 0x1014, 0x103A], 0)?.unwrap();
    /// assert_eq!(lan.final_letter(), Some(0x1014));
    /// // ၎င်း, a sign with a final.
    /// let aforementioned = jogcairn::record(&[0x104E, 0x1004, 0x103A, 0x1038], 0)?.unwrap();
    /// assert_eq!(aforementioned.final_letter(), Some(0x1004));
    /// # Ok::<(), jogcairn::Refusal>(())
    /// ```
    pub const fn final_letter(self) -> Option<u16> {
        letter(self.0[4])
    }

    /// The letter of the second final as a code value.
    ///
    /// ```
    /// // ဘတ်စ်, a brand name.
    /// let brand = jogcairn::record(&[0x1018, 0x1010, 0x103A, 0x1005, 0x103A], 0)?.unwrap();
    /// assert_eq!(brand.final_letter(), Some(0x1010));
    /// assert_eq!(brand.second_final_letter(), Some(0x1005));
    /// let lan = jogcairn::record(&[0x101C, 0x1014, 0x103A], 0)?.unwrap();
    /// assert_eq!(lan.second_final_letter(), None);
    /// # Ok::<(), jogcairn::Refusal>(())
    /// ```
    pub const fn second_final_letter(self) -> Option<u16> {
        letter(self.0[5])
    }

    /// How the final is written, or both of them; nothing where there is none.
    ///
    /// ```
    /// use jogcairn::{record, Link};
    ///
    /// // အင်္ဂလန် has a kinzi and a plain final.
    /// let england = [0x1021, 0x1004, 0x103A, 0x1039, 0x1002, 0x101C, 0x1014, 0x103A];
    /// assert_eq!(record(&england, 0)?.unwrap().link(), Some(Link::Stacked));
    /// assert_eq!(record(&england, 1)?.unwrap().link(), None);
    /// assert_eq!(record(&england, 2)?.unwrap().link(), Some(Link::Plain));
    /// # Ok::<(), jogcairn::Refusal>(())
    /// ```
    pub const fn link(self) -> Option<Link> {
        match self.0[6] {
            1 => Some(Link::Plain),
            2 => Some(Link::Stacked),
            3 => Some(Link::GreatSa),
            _ => None,
        }
    }

    /// The weight of the tone: 1 for the dot, 2 for the visarga, 0 for none.
    ///
    /// ```
    /// let record = jogcairn::record(&[0x101E, 0x1019, 0x102E, 0x1038], 1)?.unwrap();
    /// assert_eq!(record.tone(), 2);
    /// # Ok::<(), jogcairn::Refusal>(())
    /// ```
    pub const fn tone(self) -> u8 {
        self.0[7]
    }
}

/// The letter of a final by its number, 1 to 33; 0 is none.
const fn letter(number: u8) -> Option<u16> {
    match number {
        0 => None,
        number => Some(0x1000 + number as u16 - 1),
    }
}
