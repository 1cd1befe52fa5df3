//! Labels of web shops, their skeletons, and which of them look alike.

mod answers;

use answers::refused;
use jogcairn::{
    decode, label, look_alike, normalise, skeleton, skeleton_into, stored_form, typed_place,
    Reason, Which, LABEL_LIMIT, SKELETON_LIMIT, WORD_LIMIT,
};

/// A word as it may be typed, how many syllables it has, and its skeleton.
type Worked = (&'static [u16], usize, &'static [u16]);

const LABELS: [Worked; 17] = [
    (&[], 0, &[]),
    (&[0x1000, 0x102C], 1, &[0x1000, 0x102C]),
    // The two digits alone: the end of a word is no value that they stand next to.
    (&[0x1040], 1, &[0x101D]),
    (&[0x1047], 1, &[0x101B]),
    (&[0x1040, 0x1047], 2, &[0x101D, 0x101B]),
    // Other digits may stand next to letters, and these two next to other digits.
    (&[0x1000, 0x1041], 2, &[0x1000, 0x1041]),
    (&[0x1000, 0x1041, 0x1040], 3, &[0x1000, 0x1041, 0x101D]),
    (&[0x1046, 0x1047, 0x1048, 0x1000], 4, &[0x1046, 0x101B, 0x1048, 0x1000]),
    // The letters that the digits are replaced by.
    (&[0x1000, 0x101D], 2, &[0x1000, 0x101D]),
    (&[0x101D, 0x101B], 2, &[0x101D, 0x101B]),
    // One value becomes two, alone, with a final and a tone, and behind another.
    (&[0x1029], 1, &[0x101E, 0x103C]),
    (&[0x1029, 0x1000, 0x103A, 0x1038], 1, &[0x101E, 0x103C, 0x1000, 0x103A, 0x1038]),
    (&[0x1000, 0x1029, 0x1029], 3, &[0x1000, 0x101E, 0x103C, 0x101E, 0x103C]),
    // The word is normalised first: the 1025 is gone before it could be replaced.
    (&[0x1025, 0x102E], 1, &[0x1026]),
    (&[0x1000, 0x1025, 0x103A], 1, &[0x1000, 0x1009, 0x103A]),
    (&[0x1025, 0x1000, 0x103A], 1, &[0x1009, 0x1000, 0x103A]),
    (&[0x1015, 0x102F, 0x102D, 0x1000, 0x103A], 1, &[0x1015, 0x102D, 0x102F, 0x1000, 0x103A]),
];

#[test]
fn labels_have_the_syllables_and_skeletons_of_the_document() {
    for (word, syllables, values) in LABELS {
        assert_eq!(label(word), Ok(syllables), "{word:04X?}");
        assert_eq!(skeleton(word).unwrap(), values, "{word:04X?}");
    }
}

#[test]
fn labels_look_alike_exactly_where_their_skeletons_are_the_same() {
    for (first, _, values) in LABELS {
        for (second, _, others) in LABELS {
            assert_eq!(
                look_alike(first, second),
                Ok(values == others),
                "{first:04X?} {second:04X?}"
            );
        }
    }
    assert_eq!(look_alike(&[0x1025, 0x1000, 0x103A], &[0x1009, 0x1000, 0x103A]), Ok(true));
    assert_eq!(look_alike(&[0x1029], &[0x101E, 0x103C]), Ok(true));
    assert_eq!(look_alike(&[0x1025], &[0x1026]), Ok(false));
    // The one is the beginning of the other.
    assert_eq!(look_alike(&[0x1029], &[0x101E]), Ok(false));
    assert_eq!(look_alike(&[], &[0x1040]), Ok(false));
}

#[test]
fn what_is_no_label_is_refused_as_the_document_says() {
    let refusals: [(&[u16], (u8, usize)); 19] = [
        (&[0x1000, 0x0041], (2, 1)),
        (&[0x1000, 0x103A, 0x102C], (3, 2)),
        (&[0x1000, 0x1000, 0x1039], (4, 3)),
        // Stops and signs; 104E with a final too.
        (&[0x104A], (21, 0)),
        (&[0x1000, 0x104B], (21, 1)),
        (&[0x1000, 0x104C, 0x104D], (21, 1)),
        (&[0x104E, 0x1004, 0x103A], (21, 0)),
        (&[0x104F], (21, 0)),
        // A 1040 or a 1047 behind and before a value that is no digit.
        (&[0x1000, 0x1040], (22, 1)),
        (&[0x1040, 0x1000], (22, 0)),
        (&[0x1000, 0x102C, 0x1047], (22, 2)),
        (&[0x1047, 0x1023], (22, 0)),
        // A digit on one side is not enough.
        (&[0x1000, 0x1040, 0x1041], (22, 1)),
        (&[0x1041, 0x1040, 0x1000], (22, 1)),
        (&[0x1000, 0x1041, 0x1040, 0x1047, 0x1000], (22, 3)),
        // The place is one in the stored form, where 1025 102E is one value.
        (&[0x1025, 0x102E, 0x1038, 0x104B], (21, 2)),
        (&[0x1025, 0x102E, 0x1038, 0x1047, 0x1010], (22, 2)),
        // The stop is told before the digit that stands before it.
        (&[0x1000, 0x1040, 0x104B], (21, 2)),
        (&[0x1040, 0x104A], (21, 1)),
    ];
    for (word, refusal) in refusals {
        assert_eq!(refused(label(word)), refusal, "{word:04X?}");
        assert_eq!(refused(skeleton_into(word, &mut [])), refusal, "{word:04X?}");
        assert_eq!(refused(look_alike(word, word).map_err(|both| both.refusal)), refusal);
    }
}

#[test]
fn a_label_has_as_many_syllables_as_the_limit_and_no_more() {
    assert_eq!(label(&[0x1000; LABEL_LIMIT]), Ok(LABEL_LIMIT));
    assert_eq!(skeleton(&[0x1000; LABEL_LIMIT]).unwrap(), [0x1000; LABEL_LIMIT]);
    assert_eq!(refused(label(&[0x1000; LABEL_LIMIT + 1])), (23, LABEL_LIMIT));
    assert_eq!(refused(label(&[0x1040; LABEL_LIMIT + 1])), (23, LABEL_LIMIT));
    assert_eq!(refused(label(&[0x1000; WORD_LIMIT])), (23, LABEL_LIMIT));
    assert_eq!(refused(label(&[0x1000; WORD_LIMIT + 1])), (1, WORD_LIMIT));
    // A stop, a digit and a value that is foreign, each behind too many syllables.
    let behind = |value| [vec![0x1000; LABEL_LIMIT + 1], vec![value]].concat();
    assert_eq!(refused(label(&behind(0x104B))), (21, LABEL_LIMIT + 1));
    assert_eq!(refused(label(&behind(0x1047))), (22, LABEL_LIMIT + 1));
    assert_eq!(refused(label(&behind(0x1041))), (23, LABEL_LIMIT));
    assert_eq!(refused(label(&behind(0x1022))), (2, LABEL_LIMIT + 1));
}

/// The label with the longest skeleton, and that skeleton: syllables of 1029 with two finals and a
/// tone, which have a value more each, and behind them a long one, which has not.
fn longest() -> (Vec<u16>, Vec<u16>) {
    let closed = [0x1000, 0x103A, 0x1005, 0x103A, 0x1038];
    let last = [0x1015, 0x103C, 0x1031, 0x102B, 0x103A, 0x1000, 0x103A, 0x1020, 0x103A, 0x1037];
    let behind = |head: &[u16]| [head, &closed].concat().repeat(LABEL_LIMIT - 1);
    let word = [behind(&[0x1029]), last.to_vec()].concat();
    let values = [behind(&[0x101E, 0x103C]), last.to_vec()].concat();
    (word, values)
}

#[test]
fn the_longest_skeleton_has_a_value_more_than_its_word_for_each_1029() {
    let (word, values) = longest();
    assert_eq!((word.len(), values.len()), (WORD_LIMIT, SKELETON_LIMIT));
    assert_eq!(label(&word), Ok(LABEL_LIMIT));
    assert_eq!(skeleton(&word).unwrap(), values);
    assert_eq!(look_alike(&word, &word), Ok(true));
    // The skeleton itself is too long for a word.
    assert_eq!(refused(label(&values)), (1, WORD_LIMIT));
}

#[test]
fn a_skeleton_is_written_to_the_front_of_what_is_lent() {
    let (word, values) = longest();
    let mut short = [0xA5A5; SKELETON_LIMIT - 1];
    assert_eq!(refused(skeleton_into(&word, &mut short)), (5, SKELETON_LIMIT));
    assert_eq!(short, [0xA5A5; SKELETON_LIMIT - 1]);
    let mut exact = [0xA5A5; SKELETON_LIMIT];
    assert_eq!(skeleton_into(&word, &mut exact), Ok(SKELETON_LIMIT));
    assert_eq!(exact, *values);
    let mut output = [7; 4];
    assert_eq!(skeleton_into(&[0x1029], &mut output), Ok(2));
    assert_eq!(output, [0x101E, 0x103C, 7, 7]);
    // As many values as the word has are too few, and a refusal writes nothing.
    assert_eq!(refused(skeleton_into(&[0x1029], &mut output[..1])), (5, 2));
    assert_eq!(refused(skeleton_into(&[0x1000, 0x1040], &mut output)), (22, 1));
    assert_eq!(skeleton_into(&[], &mut []), Ok(0));
    assert_eq!(output, [0x101E, 0x103C, 7, 7]);
}

#[test]
fn of_two_words_the_refused_one_is_told() {
    let refusal = |first: &[u16], second: &[u16]| {
        let both = look_alike(first, second).unwrap_err();
        (both.which, both.refusal.reason, both.refusal.place)
    };
    let (plain, digit, stop) = (&[0x1000], &[0x1000, 0x1040], &[0x1000, 0x1040, 0x104B]);
    assert_eq!(refusal(plain, digit), (Which::Second, Reason::ConfusableDigit, 1));
    assert_eq!(refusal(digit, plain), (Which::First, Reason::ConfusableDigit, 1));
    let many = [0x1000; LABEL_LIMIT + 1];
    assert_eq!(refusal(plain, &many), (Which::Second, Reason::TooManySyllables, LABEL_LIMIT));
    assert_eq!(refusal(plain, &[0x103F]), (Which::Second, Reason::NoContinuation, 0));
    // The first word is tested whole: 23 of it comes before 1 and 21 of the second.
    assert_eq!(refusal(digit, stop), (Which::First, Reason::ConfusableDigit, 1));
    let too_long = [0x1000; WORD_LIMIT + 1];
    assert_eq!(refusal(&many, &too_long), (Which::First, Reason::TooManySyllables, LABEL_LIMIT));
}

#[test]
fn a_refused_digit_is_pointed_at_as_it_was_typed() {
    // ဦး၇တနာ, its first letter typed as two values.
    let typed = [0x1025, 0x102E, 0x1038, 0x1047, 0x1010, 0x1014, 0x102C];
    let (number, place) = refused(label(&typed));
    assert_eq!((number, stored_form(&typed).unwrap()[place]), (22, 0x1047));
    assert_eq!(typed_place(&typed, place), Ok(Some(3)));
}

#[test]
fn a_skeleton_keeps_its_values_where_it_is_a_label() {
    for text in ["ဩဇာ", "ဥယျာဉ်", "ဥက္ကာ", "၁၀၇", "ရွှေ၉"]
    {
        let word = decode(text.as_bytes()).unwrap();
        let values = skeleton(&word).unwrap();
        assert_eq!(normalise(&values).unwrap(), values, "{text}");
        assert_eq!(skeleton(&values).unwrap(), values, "{text}");
        assert_eq!(look_alike(&word, &values), Ok(true), "{text}");
    }
}
