//! Labels: words that name a web shop, and the skeletons by which two of them look alike.

use crate::collecting::collected;
use crate::comparison::{both_accepted, ComparisonRefusal};
use crate::ffi;
use crate::refusal::Refusal;
use crate::SKELETON_LIMIT;

/// Whether a word may be a label: how many syllables it has, or why it is refused. The word is
/// normalised first. A label has no stop and no sign, no ၀ (1040) and no ၇ (1047) next to a value
/// that is no digit, and at most [`LABEL_LIMIT`](crate::LABEL_LIMIT) syllables. They are tested in
/// this order, over the whole word.
///
/// ```
/// use jogcairn::{decode, label, Reason, Refusal};
///
/// assert_eq!(label(&decode("ရတနာ".as_bytes())?)?, 3);
/// // Digits among themselves, and other digits beside letters, are taken for no letter.
/// assert_eq!(label(&decode("၁၀၀".as_bytes())?)?, 3);
/// assert_eq!(label(&decode("ရွှေ၉".as_bytes())?)?, 2);
/// // A ၇ that was typed for a ရ.
/// let refusal = label(&decode("၇တနာ".as_bytes())?).unwrap_err();
/// assert_eq!(refusal, Refusal { reason: Reason::ConfusableDigit, place: 0 });
/// assert_eq!(
///     label(&decode("ရတနာ။".as_bytes())?).unwrap_err().to_string(),
///     "refusal 21: the value at place 4 of the stored form is a stop or a sign"
/// );
/// # Ok::<(), Refusal>(())
/// ```
pub fn label(word: &[u16]) -> Result<usize, Refusal> {
    ffi::label(word).one()
}

/// Writes the skeleton of a label to the front of `skeleton`, and gives the number of values. It is
/// the normalised word with 1040 as 101D, 1047 as 101B, 1025 as 1009, and 1029 as 101E 103C, so
/// that it may be longer than the word, but not than [`SKELETON_LIMIT`].
///
/// ```
/// use jogcairn::{skeleton_into, Reason};
///
/// // ဩဇာ
/// let mut skeleton = [7; 5];
/// assert_eq!(skeleton_into(&[0x1029, 0x1007, 0x102C], &mut skeleton)?, 4);
/// assert_eq!(skeleton, [0x101E, 0x103C, 0x1007, 0x102C, 7]);
/// let refusal = skeleton_into(&[0x1029, 0x1007, 0x102C], &mut skeleton[..3]).unwrap_err();
/// assert_eq!((refusal.reason, refusal.place), (Reason::OutputTooShort, 4));
/// # Ok::<(), jogcairn::Refusal>(())
/// ```
pub fn skeleton_into(word: &[u16], skeleton: &mut [u16]) -> Result<usize, Refusal> {
    ffi::skeleton(word, skeleton).one()
}

/// The skeleton of a label. Labels look alike exactly when their skeletons are the same, so a
/// register that keeps each label under its skeleton finds the one that a new label looks like by
/// one search.
///
/// ```
/// use jogcairn::{decode, skeleton};
/// use std::collections::HashMap;
///
/// let mut register = HashMap::new();
/// for label in ["ဩဇာ", "ရတနာ", "ဥယျာဉ်"] {
///     register.insert(skeleton(&decode(label.as_bytes())?)?, label);
/// }
/// // သ and the medial in place of ဩ, and ဉ in place of ဥ.
/// assert_eq!(register.get(&skeleton(&decode("သြဇာ".as_bytes())?)?), Some(&"ဩဇာ"));
/// assert_eq!(register.get(&skeleton(&decode("ဉယျာဉ်".as_bytes())?)?), Some(&"ဥယျာဉ်"));
/// assert_eq!(register.get(&skeleton(&decode("ပတ္တမြား".as_bytes())?)?), None);
/// # Ok::<(), jogcairn::Refusal>(())
/// ```
pub fn skeleton(word: &[u16]) -> Result<Vec<u16>, Refusal> {
    collected::<SKELETON_LIMIT>(|skeleton| skeleton_into(word, skeleton))
}

/// Whether two labels look alike: whether their skeletons are the same.
///
/// ```
/// use jogcairn::{look_alike, Reason, Which};
///
/// // ဝရ, and the number ၀၇.
/// assert!(look_alike(&[0x101D, 0x101B], &[0x1040, 0x1047])?);
/// assert!(!look_alike(&[0x101D, 0x101B], &[0x101D])?);
/// let refused = look_alike(&[0x101D], &[0x1000, 0x1040]).unwrap_err();
/// assert_eq!((refused.which, refused.refusal.reason), (Which::Second, Reason::ConfusableDigit));
/// # Ok::<(), jogcairn::ComparisonRefusal>(())
/// ```
pub fn look_alike(first: &[u16], second: &[u16]) -> Result<bool, ComparisonRefusal> {
    Ok(both_accepted(ffi::look_alike(first, second))?.whether())
}
