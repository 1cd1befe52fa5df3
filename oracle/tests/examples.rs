//! All examples of document 01, in its order, and those of document 02 on independent
//! letters that carry finals and on two finals.

use oracle::collation::Weights;
use oracle::limits::{SPELLED_LIMIT, WORD_LIMIT};
use oracle::program::Program;
use oracle::spelling::SpelledLengths;
use oracle::syllable::Record;
use oracle::{compare, key, normalise, part, read, record, spell_out, stored_form, write, Refusal};
use std::cmp::Ordering;

fn weights(word: &[u16]) -> Vec<Weights> {
    key(word).unwrap().row().to_vec()
}

fn refused(word: &[u16]) -> (u8, usize) {
    let Refusal { number, place } = read(word).unwrap_err();
    assert_eq!(key(word).unwrap_err(), Refusal { number, place }, "these are in storage order");
    (number, place)
}

fn stored(word: &[u16]) -> Vec<u16> {
    let mut output = [0; WORD_LIMIT];
    let length = normalise(word, &mut output).unwrap();
    output[..length].to_vec()
}

fn spelled(word: &[u16]) -> Vec<Vec<u16>> {
    let (mut values, mut starts) = ([0; SPELLED_LIMIT], [0; WORD_LIMIT]);
    let lengths = spell_out(word, &mut values, &mut starts).unwrap();
    let mut ends = starts[..lengths.starts].to_vec();
    ends.push(lengths.values);
    ends.windows(2).map(|pair| values[pair[0]..pair[1]].to_vec()).collect()
}

/// Reads the word and writes it back from its records.
fn written_back(word: &[u16]) -> Vec<u16> {
    let reading = read(word).unwrap();
    let records: Vec<u8> = reading.syllables().iter().flat_map(|one| one.record).collect();
    let mut output = [0; WORD_LIMIT];
    let length = write(&records, &mut output).unwrap();
    output[..length].to_vec()
}

#[test]
fn words_to_try_that_are_readable() {
    assert_eq!(weights(&[]), Vec::<Weights>::new());
    assert_eq!(read(&[]).unwrap().syllables().len(), 0);
    assert_eq!(weights(&[0x1000]), [[13, 0, 0, 0, 0, 0]]);
    assert_eq!(
        weights(&[0x101E, 0x1019, 0x102E, 0x1038]),
        [[43, 0, 0, 0, 0, 0], [38, 0, 0, 0, 3, 2]]
    );
    assert_eq!(
        weights(&[0x1010, 0x1000, 0x1039, 0x1000, 0x101E, 0x102D, 0x102F, 0x101C, 0x103A]),
        [[29, 0, 1, 0, 0, 0], [13, 0, 0, 0, 0, 0], [43, 0, 29, 0, 11, 0]]
    );
    assert_eq!(
        weights(&[0x1021, 0x1004, 0x103A, 0x1039, 0x1002, 0x101C, 0x1014, 0x103A]),
        [[46, 0, 5, 0, 0, 0], [15, 0, 0, 0, 0, 0], [41, 0, 21, 0, 0, 0]]
    );
}

#[test]
fn great_sa_is_spelled_as_two_letters() {
    assert_eq!(
        spelled(&[0x1015, 0x103C, 0x103F, 0x1014, 0x102C]),
        [vec![0x1015, 0x103C, 0x101E, 0x103A], vec![0x101E], vec![0x1014, 0x102C]]
    );
}

#[test]
fn stacked_final_and_kinzi_are_spelled_with_the_killer() {
    assert_eq!(
        spelled(&[0x1010, 0x1000, 0x1039, 0x1000]),
        [vec![0x1010, 0x1000, 0x103A], vec![0x1000]]
    );
    assert_eq!(
        spelled(&[0x1021, 0x1004, 0x103A, 0x1039, 0x1002]),
        [vec![0x1021, 0x1004, 0x103A], vec![0x1002]]
    );
}

#[test]
fn words_to_try_that_are_refused() {
    assert_eq!(refused(&[0x1000, 0x1039]), (3, 1));
    assert_eq!(refused(&[0x1000, 0x1000, 0x1039]), (4, 3));
    assert_eq!(refused(&[0x1000, 0x1004, 0x1039, 0x1000]), (3, 2));
    assert_eq!(refused(&[0x103F]), (3, 0));
    assert_eq!(refused(&[0x1000, 0x103B, 0x103C]), (3, 2));
    assert_eq!(refused(&[0x1000, 0x102C, 0x103A]), (3, 2));
    assert_eq!(weights(&[0x1000, 0x1031, 0x102C, 0x103A]), [[13, 0, 0, 0, 9, 0]]);
}

#[test]
fn words_to_try_that_are_normalised() {
    assert_eq!(stored(&[0x1000, 0x1014, 0x1037, 0x103A]), [0x1000, 0x1014, 0x103A, 0x1037]);
    assert_eq!(stored(&[0x1025, 0x102E]), [0x1026]);
    assert_eq!(stored(&[0x1000, 0x1025, 0x103A]), [0x1000, 0x1009, 0x103A]);
    assert_eq!(stored(&[0x1000, 0x1025, 0x1039, 0x1000]), [0x1000, 0x1009, 0x1039, 0x1000]);
}

#[test]
fn a_word_has_as_many_values_as_the_limit_and_no_more() {
    let longest = [0x1000; WORD_LIMIT];
    assert_eq!(read(&longest).unwrap().syllables().len(), WORD_LIMIT);
    assert_eq!(key(&longest).unwrap().count(), WORD_LIMIT);
    assert_eq!(refused(&[0x1000; WORD_LIMIT + 1]), (1, WORD_LIMIT));
}

#[test]
fn wrong_turns() {
    let final_after_vowel = compare(&[0x1000, 0x1000, 0x103A], &[0x1000, 0x102C]);
    assert_eq!(final_after_vowel, Ok(Ordering::Greater), "vowel weighed before final");
    let kinzi = [0x1021, 0x1004, 0x103A, 0x1039, 0x1002];
    assert_eq!(read(&kinzi).unwrap().syllables().len(), 2, "kinzi read as a plain final");
    assert_eq!(record(&kinzi, 0).record, [0x21, 0, 0, 0, 5, 0, 2, 0]);
    assert_eq!(weights(&[0x104F]), [[50, 0, 0, 0, 0, 0]], "weighing 104F beyond 50");
    assert_eq!(compare(&[0x1040], &[0x1000]), Ok(Ordering::Less), "filing by code values alone");
    assert_eq!(compare(&[0x1029], &[0x104C]), Ok(Ordering::Less));
    assert_eq!(
        key(&[0x1000, 0x1000, 0x1039, 0x103B]).unwrap_err(),
        Refusal { number: 3, place: 3 },
        "sorting marks across a 1039"
    );
    assert_eq!(refused(&[0x1000, 0x102B, 0x103A]), (3, 2), "103A after AA without 1031");
}

#[test]
fn the_program_prints_the_three_lines() {
    let mut output = Vec::new();
    Program::Wordlist.run("တက္ကသိုလ်\nက္\n\n".as_bytes(), &mut output).unwrap();
    let expected = "1 OK 3 1D0001000000-0D0000000000-2B001D000B00\n2 NO 3 1\n3 OK 0 -\n";
    assert_eq!(String::from_utf8(output).unwrap(), expected);
}

#[test]
fn the_longest_spelled_word_has_as_many_values_as_its_limit() {
    let mut word = [0x103F; WORD_LIMIT];
    word[0] = 0x1000;
    let (mut values, mut starts) = ([0; SPELLED_LIMIT], [0; WORD_LIMIT]);
    let lengths = spell_out(&word, &mut values, &mut starts);
    assert_eq!(lengths, Ok(SpelledLengths { values: SPELLED_LIMIT, starts: WORD_LIMIT }));
}

#[test]
fn parts_joined_give_the_word() {
    let word = [0x1015, 0x103C, 0x103F, 0x1014, 0x102C, 0x1000, 0x1000, 0x1039, 0x1000];
    let parts: [&[u16]; 5] =
        [&[0x1015, 0x103C], &[0x103F], &[0x1014, 0x102C], &[0x1000, 0x1000, 0x1039], &[0x1000]];
    for (number, expected) in parts.iter().enumerate() {
        assert_eq!(part(&word, number), *expected);
    }
    assert_eq!(part(&word, 5), &[] as &[u16]);
    assert_eq!(parts.concat(), word);
}

#[test]
fn records_write_the_word_back() {
    for word in [
        vec![],
        vec![0x1010, 0x1000, 0x1039, 0x1000, 0x101E, 0x102D, 0x102F, 0x101C, 0x103A],
        vec![0x1021, 0x1004, 0x103A, 0x1039, 0x1002, 0x101C, 0x1014, 0x103A],
        vec![0x1015, 0x103C, 0x103F, 0x1014, 0x102C],
        vec![0x1000, 0x1031, 0x102B, 0x103A, 0x1038, 0x1023, 0x1040, 0x104A, 0x104F],
    ] {
        assert_eq!(written_back(&word), word);
    }
}

#[test]
fn every_weight_of_the_page() {
    let first = |word: &[u16]| weights(word)[0];
    let heads = [0x104A, 0x104B].into_iter().chain(0x1040..=0x1049).chain(0x1000..=0x1021);
    for (value, weight) in heads.chain(0x104C..=0x104F).zip(1..) {
        assert_eq!(first(&[value]), [weight, 0, 0, 0, 0, 0]);
    }
    let independent = [0x1023, 0x1024, 0x1025, 0x1026, 0x1027, 0x1029, 0x102A];
    for (value, weight) in independent.into_iter().zip([2, 3, 4, 5, 6, 8, 9]) {
        assert_eq!(first(&[value]), [46, 0, 0, 0, weight, 0]);
        assert_eq!(first(&[value, 0x1020, 0x103A, 0x1037]), [46, 0, 33, 0, weight, 1]);
    }
    let (y, r, w, h) = (0x103B, 0x103C, 0x103D, 0x103E);
    let groups: [&[u16]; 11] = [
        &[y],
        &[r],
        &[w],
        &[h],
        &[y, w],
        &[r, w],
        &[y, h],
        &[r, h],
        &[w, h],
        &[y, w, h],
        &[r, w, h],
    ];
    for (group, weight) in groups.into_iter().zip(1..) {
        assert_eq!(first(&[&[0x1000], group].concat()), [13, weight, 0, 0, 0, 0]);
    }
    for (letter, weight) in (0x1000..=0x1020).zip(1..) {
        assert_eq!(first(&[0x1000, letter, 0x103A]), [13, 0, weight, 0, 0, 0]);
        assert_eq!(first(&[0x1000, 0x1001, 0x103A, letter, 0x103A]), [13, 0, 2, weight, 0, 0]);
        let stacked: &[u16] = if letter == 0x1004 { &[0x103A, 0x1039] } else { &[0x1039] };
        let word = [&[0x1000, letter], stacked, &[0x1000]].concat();
        assert_eq!(first(&word), [13, 0, weight, 0, 0, 0]);
    }
    assert_eq!(first(&[0x1000, 0x103F]), [13, 0, 31, 0, 0, 0]);
    let vowels: [(&[u16], u8); 15] = [
        (&[0x102B], 1),
        (&[0x102C], 1),
        (&[0x102D], 2),
        (&[0x102E], 3),
        (&[0x102F], 4),
        (&[0x1030], 5),
        (&[0x1031], 6),
        (&[0x1032], 7),
        (&[0x1031, 0x102B], 8),
        (&[0x1031, 0x102C], 8),
        (&[0x1031, 0x102B, 0x103A], 9),
        (&[0x1031, 0x102C, 0x103A], 9),
        (&[0x1036], 10),
        (&[0x102D, 0x102F], 11),
        (&[0x102F, 0x1036], 12),
    ];
    for (vowel, weight) in vowels {
        assert_eq!(first(&[&[0x1000], vowel].concat()), [13, 0, 0, 0, weight, 0]);
    }
    assert_eq!(first(&[0x1000, 0x1037]), [13, 0, 0, 0, 0, 1]);
    assert_eq!(first(&[0x1000, 0x1038]), [13, 0, 0, 0, 0, 2]);
}

/// A word of document 02, with what it is read to: records, weights and spelled syllables.
struct Worked {
    word: &'static [u16],
    records: &'static [Record],
    weights: &'static [Weights],
    spelled: &'static [&'static [u16]],
}

const WORKED: [Worked; 8] = [
    // ဥက္က
    Worked {
        word: &[0x1025, 0x1000, 0x1039, 0x1000],
        records: &[[0x25, 0, 0, 0, 1, 0, 2, 0], [0; 8]],
        weights: &[[46, 0, 1, 0, 4, 0], [13, 0, 0, 0, 0, 0]],
        spelled: &[&[0x1025, 0x1000, 0x103A], &[0x1000]],
    },
    // ၎င်း
    Worked {
        word: &[0x104E, 0x1004, 0x103A, 0x1038],
        records: &[[0x4E, 0, 0, 0, 5, 0, 1, 2]],
        weights: &[[49, 0, 5, 0, 0, 2]],
        spelled: &[&[0x104E, 0x1004, 0x103A, 0x1038]],
    },
    Worked {
        word: &[0x1029, 0x1038],
        records: &[[0x29, 0, 0, 0, 0, 0, 0, 2]],
        weights: &[[46, 0, 0, 0, 8, 2]],
        spelled: &[&[0x1029, 0x1038]],
    },
    Worked {
        word: &[0x1023, 0x1004, 0x103A, 0x1039, 0x1002],
        records: &[[0x23, 0, 0, 0, 5, 0, 2, 0], [2, 0, 0, 0, 0, 0, 0, 0]],
        weights: &[[46, 0, 5, 0, 2, 0], [15, 0, 0, 0, 0, 0]],
        spelled: &[&[0x1023, 0x1004, 0x103A], &[0x1002]],
    },
    Worked {
        word: &[0x1023, 0x103F],
        records: &[[0x23, 0, 0, 0, 31, 0, 3, 0], [0x1E, 0, 0, 0, 0, 0, 0, 0]],
        weights: &[[46, 0, 31, 0, 2, 0], [43, 0, 0, 0, 0, 0]],
        spelled: &[&[0x1023, 0x101E, 0x103A], &[0x101E]],
    },
    Worked {
        word: &[0x104E, 0x103F, 0x103F],
        records: &[
            [0x4E, 0, 0, 0, 31, 0, 3, 0],
            [0x1E, 0, 0, 0, 31, 0, 3, 0],
            [0x1E, 0, 0, 0, 0, 0, 0, 0],
        ],
        weights: &[[49, 0, 31, 0, 0, 0], [43, 0, 31, 0, 0, 0], [43, 0, 0, 0, 0, 0]],
        spelled: &[&[0x104E, 0x101E, 0x103A], &[0x101E, 0x101E, 0x103A], &[0x101E]],
    },
    Worked {
        word: &[0x1025, 0x1009, 0x103A],
        records: &[[0x25, 0, 0, 0, 10, 0, 1, 0]],
        weights: &[[46, 0, 10, 0, 4, 0]],
        spelled: &[&[0x1025, 0x1009, 0x103A]],
    },
    Worked {
        word: &[0x1026, 0x1038],
        records: &[[0x26, 0, 0, 0, 0, 0, 0, 2]],
        weights: &[[46, 0, 0, 0, 5, 2]],
        spelled: &[&[0x1026, 0x1038]],
    },
];

impl Worked {
    /// The word is stored as it is, read and spelled so, and written back.
    fn holds(&self) {
        let word = self.word;
        let reading = read(word).unwrap();
        let records: Vec<_> = reading.syllables().iter().map(|one| one.record).collect();
        assert_eq!(records, self.records, "{word:04X?}");
        assert_eq!(weights(word), self.weights, "{word:04X?}");
        assert_eq!(spelled(word), self.spelled, "{word:04X?}");
        assert_eq!(written_back(word), word);
        assert_eq!(stored(word), word);
    }
}

#[test]
fn independent_letters_carry_finals_and_tones() {
    WORKED.iter().for_each(Worked::holds);
}

#[test]
fn independent_letters_have_their_parts() {
    let word = [0x1025, 0x1000, 0x1039, 0x1000, 0x1023, 0x103F, 0x104E, 0x1038];
    let parts: [&[u16]; 5] =
        [&[0x1025, 0x1000, 0x1039], &[0x1000], &[0x1023], &[0x103F], &[0x104E, 0x1038]];
    for (number, expected) in parts.iter().enumerate() {
        assert_eq!(part(&word, number), *expected);
    }
}

#[test]
fn independent_letters_are_refused_with_what_they_do_not_carry() {
    assert_eq!(refused(&[0x1023, 0x1038, 0x103F]), (3, 2));
    assert_eq!(refused(&[0x1025, 0x1038, 0x103F]), (3, 2));
    assert_eq!(refused(&[0x1023, 0x103B]), (3, 1));
    assert_eq!(refused(&[0x1023, 0x102C]), (3, 1));
    assert_eq!(refused(&[0x104E, 0x102C]), (3, 1));
    // 1000 begins a syllable of its own, which 103A cannot close.
    assert_eq!(refused(&[0x104C, 0x1000, 0x103A]), (3, 2));
    assert_eq!(refused(&[0x1023, 0x1004, 0x1039, 0x1000]), (3, 2));
    assert_eq!(refused(&[0x1023, 0x1000, 0x1039]), (4, 3));
    assert_eq!(refused(&[0x1023, 0x1004, 0x103A, 0x1039]), (4, 4));
    // "An I or 104E after 1039 is still refused".
    assert_eq!(refused(&[0x1000, 0x1000, 0x1039, 0x1025]), (3, 3));
    assert_eq!(refused(&[0x1000, 0x1000, 0x1039, 0x104E]), (3, 3));
}

#[test]
fn the_letter_u_is_stored_by_its_neighbour() {
    assert_eq!(stored(&[0x1025, 0x1025, 0x103A]), [0x1025, 0x1009, 0x103A]);
    assert_eq!(stored(&[0x1025, 0x1038, 0x102E]), [0x1026, 0x1038]);
    assert_eq!(stored(&[0x1023, 0x1025, 0x1039, 0x1005]), [0x1023, 0x1009, 0x1039, 0x1005]);
    let mut outcome = [0; 2];
    assert_eq!(stored_form(&[0x1025, 0x103A], &mut outcome), Ok(2));
    assert_eq!(outcome, [0x1009, 0x103A]);
    assert_eq!(key(&[0x1025, 0x103A]), Err(Refusal { number: 3, place: 1 }));
}

#[test]
fn the_program_prints_the_key_of_an_independent_letter_with_its_final() {
    let mut output = Vec::new();
    Program::Wordlist.run("ဥက္က\n၎င်း\n".as_bytes(), &mut output).unwrap();
    let expected = "1 OK 2 2E0001000400-0D0000000000\n2 OK 1 310005000002\n";
    assert_eq!(String::from_utf8(output).unwrap(), expected);
}

const TWO_FINALS: [Worked; 10] = [
    // ဘတ်စ်
    Worked {
        word: &[0x1018, 0x1010, 0x103A, 0x1005, 0x103A],
        records: &[[0x18, 0, 0, 0, 17, 6, 1, 0]],
        weights: &[[37, 0, 17, 6, 0, 0]],
        spelled: &[&[0x1018, 0x1010, 0x103A, 0x1005, 0x103A]],
    },
    Worked {
        word: &[0x1018, 0x1010, 0x103A, 0x1005, 0x103A, 0x1037],
        records: &[[0x18, 0, 0, 0, 17, 6, 1, 1]],
        weights: &[[37, 0, 17, 6, 0, 1]],
        spelled: &[&[0x1018, 0x1010, 0x103A, 0x1005, 0x103A, 0x1037]],
    },
    Worked {
        word: &[0x1018, 0x1010, 0x103A, 0x1005, 0x103A, 0x1038],
        records: &[[0x18, 0, 0, 0, 17, 6, 1, 2]],
        weights: &[[37, 0, 17, 6, 0, 2]],
        spelled: &[&[0x1018, 0x1010, 0x103A, 0x1005, 0x103A, 0x1038]],
    },
    Worked {
        word: &[0x1000, 0x1000, 0x103A, 0x1000, 0x103A],
        records: &[[0, 0, 0, 0, 1, 1, 1, 0]],
        weights: &[[13, 0, 1, 1, 0, 0]],
        spelled: &[&[0x1000, 0x1000, 0x103A, 0x1000, 0x103A]],
    },
    // A vowel before them, whose own 103A is no final's.
    Worked {
        word: &[0x1000, 0x103B, 0x1031, 0x102B, 0x103A, 0x1020, 0x103A, 0x1004, 0x103A, 0x1038],
        records: &[[0, 1, 9, 1, 33, 5, 1, 2]],
        weights: &[[13, 1, 33, 5, 9, 2]],
        spelled: &[&[
            0x1000, 0x103B, 0x1031, 0x102B, 0x103A, 0x1020, 0x103A, 0x1004, 0x103A, 0x1038,
        ]],
    },
    Worked {
        word: &[0x1025, 0x1010, 0x103A, 0x1005, 0x103A],
        records: &[[0x25, 0, 0, 0, 17, 6, 1, 0]],
        weights: &[[46, 0, 17, 6, 4, 0]],
        spelled: &[&[0x1025, 0x1010, 0x103A, 0x1005, 0x103A]],
    },
    Worked {
        word: &[0x104E, 0x1004, 0x103A, 0x1005, 0x103A, 0x1038],
        records: &[[0x4E, 0, 0, 0, 5, 6, 1, 2]],
        weights: &[[49, 0, 5, 6, 0, 2]],
        spelled: &[&[0x104E, 0x1004, 0x103A, 0x1005, 0x103A, 0x1038]],
    },
    // Of a third letter without a killer, and of one with a final of its own.
    Worked {
        word: &[0x1000, 0x1000, 0x103A, 0x1005, 0x103A, 0x1019],
        records: &[[0, 0, 0, 0, 1, 6, 1, 0], [0x19, 0, 0, 0, 0, 0, 0, 0]],
        weights: &[[13, 0, 1, 6, 0, 0], [38, 0, 0, 0, 0, 0]],
        spelled: &[&[0x1000, 0x1000, 0x103A, 0x1005, 0x103A], &[0x1019]],
    },
    Worked {
        word: &[0x1000, 0x1000, 0x103A, 0x1005, 0x1019, 0x103A],
        records: &[[0, 0, 0, 0, 1, 0, 1, 0], [5, 0, 0, 0, 26, 0, 1, 0]],
        weights: &[[13, 0, 1, 0, 0, 0], [18, 0, 26, 0, 0, 0]],
        spelled: &[&[0x1000, 0x1000, 0x103A], &[0x1005, 0x1019, 0x103A]],
    },
    // Below a stacked letter, and on the head half of 103F.
    Worked {
        word: &[
            0x1010, 0x1000, 0x1039, 0x1000, 0x1010, 0x103A, 0x1005, 0x103A, 0x1015, 0x103F, 0x1010,
            0x103A, 0x1005, 0x103A,
        ],
        records: &[
            [0x10, 0, 0, 0, 1, 0, 2, 0],
            [0, 0, 0, 0, 17, 6, 1, 0],
            [0x15, 0, 0, 0, 31, 0, 3, 0],
            [0x1E, 0, 0, 0, 17, 6, 1, 0],
        ],
        weights: &[
            [29, 0, 1, 0, 0, 0],
            [13, 0, 17, 6, 0, 0],
            [34, 0, 31, 0, 0, 0],
            [43, 0, 17, 6, 0, 0],
        ],
        spelled: &[
            &[0x1010, 0x1000, 0x103A],
            &[0x1000, 0x1010, 0x103A, 0x1005, 0x103A],
            &[0x1015, 0x101E, 0x103A],
            &[0x101E, 0x1010, 0x103A, 0x1005, 0x103A],
        ],
    },
];

#[test]
fn two_finals_close_one_syllable() {
    TWO_FINALS.iter().for_each(Worked::holds);
}

#[test]
fn a_second_final_is_plain_and_the_last() {
    // A third letter with a killer would be a head that 103A cannot close.
    assert_eq!(refused(&[0x1000, 0x1000, 0x103A, 0x1005, 0x103A, 0x1019, 0x103A]), (3, 6));
    assert_eq!(refused(&[0x1025, 0x1000, 0x103A, 0x1005, 0x103A, 0x1019, 0x103A]), (3, 6));
    assert_eq!(refused(&[0x104E, 0x1000, 0x103A, 0x1000, 0x103A, 0x1000, 0x103A]), (3, 6));
    assert_eq!(refused(&[0x1000, 0x1000, 0x103A, 0x1004, 0x103A, 0x1039]), (3, 5));
    assert_eq!(refused(&[0x1000, 0x1000, 0x103A, 0x1004, 0x103A, 0x1039, 0x1002]), (3, 5));
    assert_eq!(refused(&[0x1000, 0x1000, 0x103A, 0x1005, 0x1039]), (3, 4));
    assert_eq!(refused(&[0x1000, 0x1000, 0x103A, 0x1005, 0x1039, 0x1005]), (3, 4));
    assert_eq!(refused(&[0x1000, 0x1000, 0x103A, 0x103F]), (3, 3));
    assert_eq!(refused(&[0x1000, 0x1000, 0x103A, 0x1005, 0x103A, 0x103F]), (3, 5));
    assert_eq!(refused(&[0x1000, 0x1000, 0x103A, 0x1021, 0x103A]), (3, 4));
    assert_eq!(refused(&[0x1000, 0x1000, 0x103A, 0x1023, 0x103A]), (3, 4));
    assert_eq!(refused(&[0x104C, 0x1000, 0x103A, 0x1005, 0x103A]), (3, 2));
    assert_eq!(refused(&[0x1040, 0x1000, 0x103A, 0x1005, 0x103A]), (3, 2));
    assert_eq!(refused(&[0x1000, 0x1000, 0x103A, 0x1005, 0x103A, 0x103A]), (3, 5));
    assert_eq!(refused(&[0x1000, 0x1000, 0x103A, 0x1005, 0x103A, 0x1037, 0x1038]), (3, 6));
    // A stacked final has none behind it: 1005 is the head below.
    assert_eq!(refused(&[0x1000, 0x1000, 0x1039, 0x1005, 0x103A]), (3, 4));
}

#[test]
fn no_tone_stands_between_two_finals() {
    assert_eq!(refused(&[0x1000, 0x1010, 0x103A, 0x1037, 0x1005, 0x103A]), (3, 5));
    assert_eq!(refused(&[0x1025, 0x1010, 0x103A, 0x1038, 0x1005, 0x103A]), (3, 5));
    // Runs are sorted apart, so the tone stays with the first final.
    let typed = [0x1000, 0x1010, 0x1037, 0x103A, 0x1005, 0x103A];
    assert_eq!(key(&typed), Err(Refusal { number: 3, place: 5 }));
    assert_eq!(read(&typed).unwrap_err(), Refusal { number: 3, place: 3 });
    let behind = [0x1018, 0x1010, 0x103A, 0x1005, 0x1037, 0x103A];
    assert_eq!(stored(&behind), [0x1018, 0x1010, 0x103A, 0x1005, 0x103A, 0x1037]);
    let letter_u = [0x1000, 0x1025, 0x103A, 0x1025, 0x103A];
    assert_eq!(stored(&letter_u), [0x1000, 0x1009, 0x103A, 0x1009, 0x103A]);
}

/// "A key gains a sixth weight, which stands and is compared straight after the first
/// final": after every word of the first final alone, whatever vowel and tone it has.
#[test]
fn the_second_final_is_compared_straight_after_the_first() {
    let rising: [&[u16]; 9] = [
        &[0x1000, 0x102C],
        &[0x1000, 0x1000, 0x103A],
        &[0x1000, 0x1000, 0x103A, 0x1021],
        &[0x1000, 0x102F, 0x1036, 0x1000, 0x103A, 0x1038],
        &[0x1000, 0x1000, 0x103A, 0x1000, 0x103A],
        &[0x1000, 0x1000, 0x103A, 0x1000, 0x103A, 0x1037],
        &[0x1000, 0x102C, 0x1000, 0x103A, 0x1000, 0x103A],
        &[0x1000, 0x1000, 0x103A, 0x1001, 0x103A],
        &[0x1000, 0x1001, 0x103A],
    ];
    for (number, first) in rising.iter().enumerate() {
        for (other, second) in rising.iter().enumerate() {
            assert_eq!(compare(first, second), Ok(number.cmp(&other)));
        }
    }
}

#[test]
fn the_part_of_a_syllable_has_both_finals() {
    let word = [0x1021, 0x1018, 0x1010, 0x103A, 0x1005, 0x103A, 0x1037, 0x1000];
    let parts: [&[u16]; 3] =
        [&[0x1021], &[0x1018, 0x1010, 0x103A, 0x1005, 0x103A, 0x1037], &[0x1000]];
    for (number, expected) in parts.iter().enumerate() {
        assert_eq!(part(&word, number), *expected);
    }
}

#[test]
fn the_program_prints_six_bytes_a_syllable() {
    let mut output = Vec::new();
    Program::Wordlist.run("ဘတ်စ်\nကက်စ်ကား\n".as_bytes(), &mut output).unwrap();
    let expected = "1 OK 1 250011060000\n2 OK 2 0D0001060000-0D0000000102\n";
    assert_eq!(String::from_utf8(output).unwrap(), expected);
}
