//! Document 01, "The letters".

/// Medial Y.
pub const MEDIAL_Y: u16 = 0x103B;
/// Medial R.
pub const MEDIAL_R: u16 = 0x103C;
/// Medial W.
pub const MEDIAL_W: u16 = 0x103D;
/// Medial H.
pub const MEDIAL_H: u16 = 0x103E;

/// Vowel mark tall AA.
pub const TALL_AA: u16 = 0x102B;
/// Vowel mark AA.
pub const AA: u16 = 0x102C;
/// Vowel mark I.
pub const MARK_I: u16 = 0x102D;
/// Vowel mark II.
pub const MARK_II: u16 = 0x102E;
/// Vowel mark U.
pub const MARK_U: u16 = 0x102F;
/// Vowel mark UU.
pub const MARK_UU: u16 = 0x1030;
/// Vowel mark E.
pub const MARK_E: u16 = 0x1031;
/// The vowel mark that document 01 leaves without a name (Unicode: AI).
pub const MARK_AI: u16 = 0x1032;
/// Vowel mark AM.
pub const MARK_AM: u16 = 0x1036;

/// Tone dot.
pub const DOT: u16 = 0x1037;
/// Tone visarga.
pub const VISARGA: u16 = 0x1038;
/// Takes a letter's own vowel away, and so makes it a final.
pub const KILLER: u16 = 0x103A;
/// Puts the next letter under the one before.
pub const STACKER: u16 = 0x1039;
/// Final 101E and head 101E written as one.
pub const GREAT_SA: u16 = 0x103F;

/// The letter for which kinzi stands.
pub const NGA: u16 = 0x1004;
/// The letter that looks like [`LETTER_U`].
pub const NYA: u16 = 0x1009;
/// The letter that looks like [`DIGIT_SEVEN`].
pub const RA: u16 = 0x101B;
/// The letter that looks like [`DIGIT_ZERO`].
pub const WA: u16 = 0x101D;
/// The letter of which great sa is made.
pub const SA: u16 = 0x101E;
/// "A final letter is 1000 to 1020": the last of them.
pub const LAST_FINAL_LETTER: u16 = 0x1020;
/// Independent vowel U.
pub const LETTER_U: u16 = 0x1025;
/// Independent vowel UU.
pub const LETTER_UU: u16 = 0x1026;
/// Independent vowel O.
pub const LETTER_O: u16 = 0x1029;
/// Digit 0.
pub const DIGIT_ZERO: u16 = 0x1040;
/// Digit 7.
pub const DIGIT_SEVEN: u16 = 0x1047;
/// The sign that carries a final and a tone (Unicode: aforementioned).
pub const AFOREMENTIONED: u16 = 0x104E;

/// The kinds into which document 01 sorts the admitted values.
#[derive(Clone, Copy, Debug, PartialEq, Eq)]
pub enum Class {
    /// "C, 34 letters: 1000 to 1021."
    Consonant,
    /// "I, independent vowels: 1023 to 1027, 1029, 102A."
    IndependentVowel,
    /// "Medials: 103B (Y), 103C (R), 103D (W), 103E (H)."
    Medial,
    /// "Vowel marks: 102B (tall AA), 102C (AA), 102D (I), 102E (II), 102F (U),
    /// 1030 (UU), 1031 (E), 1032, 1036 (AM)."
    VowelMark,
    /// "Tones: 1037 (dot), 1038 (visarga)."
    Tone,
    /// "Killer: 103A."
    Killer,
    /// "Stacker: 1039."
    Stacker,
    /// "Great sa: 103F."
    GreatSa,
    /// "N, digits: 1040 to 1049."
    Digit,
    /// "P, stops: 104A, 104B."
    Stop,
    /// "S, signs: 104C to 104F."
    Sign,
}

/// The class of an admitted value. "Everything else is foreign: 1022, 1028, 1033
/// to 1035 and all outside 1000 to 104F."
pub const fn class_of(value: u16) -> Option<Class> {
    Some(match value {
        0x1000..=0x1021 => Class::Consonant,
        0x1023..=0x1027 | 0x1029 | 0x102A => Class::IndependentVowel,
        0x103B..=0x103E => Class::Medial,
        0x102B..=0x1032 | 0x1036 => Class::VowelMark,
        0x1037 | 0x1038 => Class::Tone,
        KILLER => Class::Killer,
        STACKER => Class::Stacker,
        GREAT_SA => Class::GreatSa,
        0x1040..=0x1049 => Class::Digit,
        0x104A | 0x104B => Class::Stop,
        0x104C..=0x104F => Class::Sign,
        _ => return None,
    })
}

/// Whether a syllable can begin with the value: a C, or "each I, N, P or S".
pub const fn is_head(value: u16) -> bool {
    matches!(
        class_of(value),
        Some(Class::Consonant | Class::IndependentVowel | Class::Digit | Class::Stop | Class::Sign)
    )
}

/// Whether a head may have medials and a vowel mark. Of a full syllable, "the head is
/// a C"; every other head takes "no medial and no vowel mark".
pub const fn carries_marks(head: u16) -> bool {
    matches!(class_of(head), Some(Class::Consonant))
}

/// Whether a head may have a final and a tone. Document 02: "Each I, and 104E alone
/// among the signs, may now take a final and a tone as a full syllable does". Of the
/// others document 01 says: "a syllable alone and carries nothing".
pub const fn carries_final(head: u16) -> bool {
    carries_marks(head)
        || matches!(class_of(head), Some(Class::IndependentVowel))
        || head == AFOREMENTIONED
}

/// All admitted values, in rising order.
pub fn admitted_values() -> impl Iterator<Item = u16> {
    (0x1000..=0x104F).filter(|&value| class_of(value).is_some())
}

#[cfg(test)]
mod tests {
    use super::*;

    #[test]
    fn seventy_five_values_are_admitted() {
        assert_eq!(admitted_values().count(), 75);
        assert!((0..=u16::MAX).filter(|&value| class_of(value).is_some()).eq(admitted_values()));
    }

    #[test]
    fn the_foreign_values_inside_the_block_are_the_named_ones() {
        let foreign = (0x1000..=0x104F).filter(|&value| class_of(value).is_none());
        assert!(foreign.eq([0x1022, 0x1028, 0x1033, 0x1034, 0x1035]));
    }

    #[test]
    fn each_class_has_its_size() {
        let size =
            |class| admitted_values().filter(|&value| class_of(value) == Some(class)).count();
        assert_eq!(size(Class::Consonant), 34);
        assert_eq!(size(Class::IndependentVowel), 7);
        assert_eq!(size(Class::Medial), 4);
        assert_eq!(size(Class::VowelMark), 9);
        assert_eq!(size(Class::Tone), 2);
        assert_eq!(size(Class::Digit), 10);
        assert_eq!(size(Class::Stop), 2);
        assert_eq!(size(Class::Sign), 4);
    }

    #[test]
    fn beside_the_consonants_eight_heads_carry_a_final() {
        let heads = |carries: fn(u16) -> bool| {
            let heads = admitted_values().filter(|&value| is_head(value));
            heads.filter(move |&head| carries(head)).collect::<Vec<u16>>()
        };
        assert_eq!(heads(|_| true).len(), 57);
        assert!(heads(carries_marks).into_iter().eq(0x1000..=0x1021));
        let independent = [0x1023, 0x1024, 0x1025, 0x1026, 0x1027, 0x1029, 0x102A];
        let others = heads(|head| carries_final(head) && !carries_marks(head));
        assert_eq!(others, [&independent[..], &[0x104E]].concat());
        assert!(heads(carries_marks).into_iter().all(carries_final));
        assert!((0..=u16::MAX).filter(|&value| !is_head(value)).all(|value| !carries_final(value)));
    }
}
