//! The cases that the page of readings names, where they concern no book.

use oracle::limits::{KEY_SIZE, LINE_LIMIT, RECORD_SIZE, WEIGHTS, WORD_LIMIT};
use oracle::program::Program;
use oracle::syllable::Record;
use oracle::{compare, decode, key, normalise, part, put_record, read, record, spell_out, write};
use oracle::{Key, Refusal, Which};
use std::cmp::Ordering;

fn refused(word: &[u16]) -> (u8, usize) {
    let Refusal { number, place } = read(word).unwrap_err();
    (number, place)
}

fn refused_normalising(word: &[u16]) -> (u8, usize) {
    let Refusal { number, place } = key(word).unwrap_err();
    (number, place)
}

fn refused_line(line: &[u8]) -> (u8, usize) {
    let Refusal { number, place } = decode(line).and_then(|word| key(&word)).unwrap_err();
    (number, place)
}

fn refused_writing(records: &[u8]) -> (u8, usize) {
    let Refusal { number, place } = write(records, &mut [0; WORD_LIMIT]).unwrap_err();
    (number, place)
}

fn written(records: &[u8]) -> Vec<u16> {
    let mut output = [0; WORD_LIMIT];
    let length = write(records, &mut output).unwrap();
    output[..length].to_vec()
}

fn printed(input: &[u8]) -> String {
    let mut output = Vec::new();
    Program::Wordlist.run(input, &mut output).unwrap();
    String::from_utf8(output).unwrap()
}

#[test]
fn continuations_follow_the_outcome() {
    assert_eq!(refused_normalising(&[0x1000, 0x102C, 0x103A]), (3, 2));
    assert_eq!(key(&[0x1000, 0x102C, 0x103A, 0x1031]).unwrap().row(), [[13, 0, 0, 0, 9, 0]]);
}

#[test]
fn the_letter_u_meets_its_neighbour_after_sorting() {
    assert_eq!(key(&[0x1025, 0x1038, 0x102E]).unwrap().row(), [[46, 0, 0, 0, 5, 2]]);
    assert_eq!(refused_normalising(&[0x1025, 0x1031, 0x102E]), (3, 1));
    assert_eq!(refused_normalising(&[0x1025, 0x103A]), (3, 1));
    // An I takes a final, so 1009 is one; after a digit it is a head, and the killer is too
    // much.
    assert_eq!(key(&[0x1025, 0x1025, 0x103A]).unwrap().row(), [[46, 0, 10, 0, 4, 0]]);
    assert_eq!(refused_normalising(&[0x1040, 0x1025, 0x103A]), (3, 2));
    assert_eq!(key(&[0x1000, 0x1025, 0x1037, 0x103A]).unwrap().row(), [[13, 0, 10, 0, 0, 1]]);
    // Only a direct neighbour counts.
    let kept = [0x1025, 0x1000, 0x1039, 0x1000];
    assert_eq!(key(&kept).unwrap().row(), [[46, 0, 1, 0, 4, 0], [13, 0, 0, 0, 0, 0]]);
}

#[test]
fn any_vowel_goes_with_any_final() {
    let word = [0x1000, 0x1031, 0x102C, 0x103A, 0x1000, 0x103A];
    assert_eq!(read(&word).unwrap().syllables()[0].record, [0, 0, 9, 0, 1, 0, 1, 0]);
}

#[test]
fn records_and_parts_of_refused_words_and_beyond_the_count() {
    let answer = record(&[0x1000, 0x1039], 0);
    assert_eq!(answer.refusal, Some(Refusal { number: 3, place: 1 }));
    assert!(!answer.present && answer.record == [0; RECORD_SIZE]);
    let answer = record(&[0x1000], 1);
    assert!(answer.refusal.is_none() && !answer.present && answer.record == [0; RECORD_SIZE]);
    let answer = record(&[0x1000], 0);
    assert!(answer.refusal.is_none() && answer.present);
    assert_eq!(part(&[0x1000, 0x1039], 0), &[] as &[u16]);
    assert_eq!(part(&[0x1000], usize::MAX), &[] as &[u16]);
}

/// Tests 1, 2, 3 or 4 come first, then that there is such a syllable, then the output.
#[test]
fn a_record_is_put_where_there_is_room_for_it() {
    let word = [0x1000, 0x1018, 0x1010, 0x103A, 0x1005, 0x103A];
    let mut output = [7; RECORD_SIZE + 2];
    assert_eq!(put_record(&word, 1, &mut output), Ok(Some(RECORD_SIZE)));
    assert_eq!(output, [0x18, 0, 0, 0, 17, 6, 1, 0, 7, 7]);
    assert_eq!(put_record(&word, 0, &mut output[..RECORD_SIZE]), Ok(Some(RECORD_SIZE)));
    assert_eq!(output, [0, 0, 0, 0, 0, 0, 0, 0, 7, 7]);
    let mut short = [7; RECORD_SIZE - 1];
    assert_eq!(put_record(&word, 1, &mut short), Err(Refusal { number: 5, place: RECORD_SIZE }));
    assert_eq!(put_record(&word, 2, &mut short), Ok(None));
    assert_eq!(put_record(&[0x103F], 0, &mut short), Err(Refusal { number: 3, place: 0 }));
    assert_eq!(put_record(&[], 0, &mut []), Ok(None));
    assert_eq!(short, [7; RECORD_SIZE - 1], "a refusal writes nothing");
}

#[test]
fn too_long_comes_first() {
    assert_eq!(refused_line(&[b'a'; LINE_LIMIT + 1]), (1, WORD_LIMIT));
    assert_eq!(refused_line(&[b'a'; LINE_LIMIT]), (7, 0));
    let mut word = [0x1000; WORD_LIMIT + 1];
    word[3] = 0x1022;
    assert_eq!(refused(&word), (1, WORD_LIMIT));
    word[3] = 0x1025;
    word[4] = 0x102E;
    assert_eq!(refused_normalising(&word), (1, WORD_LIMIT));
    assert_eq!(key(&word[..WORD_LIMIT]).unwrap().count(), WORD_LIMIT - 1);
}

#[test]
fn foreign_values_beat_the_reading() {
    assert_eq!(refused(&[0x1039, 0x1000, 0x1022]), (2, 2));
    assert_eq!(refused(&[0x103A, 0x0041, 0x1028]), (2, 1));
    assert_eq!(refused_normalising(&[0x1025, 0x102E, 0x1050]), (2, 2));
    for value in [0x1022, 0x1028, 0x1033, 0x1034, 0x1035].into_iter().chain(0x1050..=0x107F) {
        let text = char::from_u32(value).unwrap().to_string();
        assert_eq!(refused_line(text.as_bytes()), (2, 0));
    }
    for line in ["\r", "\0", "a", "\u{1080}", "\u{0FFF}", "\u{11000}"] {
        assert_eq!(refused_line(line.as_bytes()), (7, 0));
        assert_eq!(refused_line(format!("က{line}").as_bytes()), (7, 3));
    }
}

#[test]
fn faulty_threes_are_placed_by_bytes() {
    assert_eq!(refused_line(b"\xE1\x80\x80\xE1\x80"), (7, 3));
    assert_eq!(refused_line(b"\xE1\x80\x80\xE1"), (7, 3));
    assert_eq!(refused_line(b"\xE1\x80\x80\xE1\x82\x80"), (7, 3));
    assert_eq!(refused_line(b"\xE1\x80\xC0"), (7, 0));
    assert_eq!(refused_line(b"\x80\xE1\x80\x80"), (7, 0));
    let foreign_then_short = "\u{1022}က\u{80}";
    assert_eq!(refused_line(foreign_then_short.as_bytes()), (7, 6));
}

#[test]
fn open_ends_are_unfinished() {
    let mut word = [0x1000; WORD_LIMIT];
    word[WORD_LIMIT - 1] = 0x1039;
    assert_eq!(refused(&word), (4, WORD_LIMIT));
    assert_eq!(refused(&[0x1000, 0x1004, 0x103A, 0x1039]), (4, 4));
    assert_eq!(refused(&[0x1004, 0x103A, 0x1039, 0x1000]), (3, 1));
    assert_eq!(refused(&[0x1000, 0x1014, 0x1037, 0x103A]), (3, 3));
}

#[test]
fn only_a_final_letter_follows_the_stacker() {
    let others = [0x1021, 0x1025, 0x1040, 0x104A, 0x104C, 0x104E, 0x103F, 0x103B, 0x1039, 0x1037];
    for (head, value) in
        [0x1000, 0x1025, 0x104E].into_iter().flat_map(|head| others.map(|value| (head, value)))
    {
        assert_eq!(refused(&[head, 0x1000, 0x1039, value]), (3, 3));
        assert_eq!(refused(&[head, 0x1004, 0x103A, 0x1039, value]), (3, 4));
    }
    assert_eq!(refused(&[0x1000, 0x1000, 0x1039, 0x1000, 0x103A]), (3, 4));
    // The letter under the stacker is a head, so nothing can be stacked under it.
    assert_eq!(refused(&[0x1000, 0x1000, 0x1039, 0x1000, 0x1039]), (3, 4));
}

#[test]
fn great_sa_needs_a_syllable_before_it_that_takes_a_final() {
    let records = |word: &[u16]| -> Vec<Record> {
        read(word).unwrap().syllables().iter().map(|syllable| syllable.record).collect()
    };
    assert_eq!(
        records(&[0x1000, 0x103F, 0x103F]),
        [[0, 0, 0, 0, 31, 0, 3, 0], [0x1E, 0, 0, 0, 31, 0, 3, 0], [0x1E, 0, 0, 0, 0, 0, 0, 0]]
    );
    assert_eq!(
        records(&[0x1025, 0x103F, 0x104E, 0x103F]),
        [
            [0x25, 0, 0, 0, 31, 0, 3, 0],
            [0x1E, 0, 0, 0, 0, 0, 0, 0],
            [0x4E, 0, 0, 0, 31, 0, 3, 0],
            [0x1E, 0, 0, 0, 0, 0, 0, 0]
        ]
    );
    assert_eq!(refused(&[0x1040, 0x103F]), (3, 1));
    assert_eq!(refused(&[0x104C, 0x103F]), (3, 1));
    for head in [0x1000, 0x1025, 0x104E] {
        assert_eq!(refused(&[head, 0x1037, 0x103F]), (3, 2));
        assert_eq!(refused(&[head, 0x1038, 0x103F]), (3, 2));
        assert_eq!(refused(&[head, 0x1000, 0x103A, 0x103F]), (3, 3));
    }
    assert_eq!(records(&[0x1000, 0x1000, 0x103F]).len(), 3);
    assert_eq!(part(&[0x1000, 0x102C, 0x103F, 0x102E], 1), [0x103F, 0x102E]);
    assert_eq!(part(&[0x1000, 0x1000, 0x1039, 0x1000], 0), [0x1000, 0x1000, 0x1039]);
}

#[test]
fn syllables_alone_have_only_zeros_behind_their_head() {
    for value in [0x1025, 0x102A, 0x1040, 0x104A, 0x104E, 0x104F] {
        let head = (value - 0x1000) as u8;
        assert_eq!(record(&[value], 0).record, [head, 0, 0, 0, 0, 0, 0, 0]);
    }
    assert_eq!(key(&[0x1029]).unwrap().row(), [[46, 0, 0, 0, 8, 0]]);
    let word = [0x1000, 0x103B, 0x1031, 0x102B, 0x1000, 0x103A, 0x1038];
    assert_eq!(record(&word, 0).record, [0, 1, 8, 1, 1, 0, 1, 2]);
    assert_eq!(key(&word).unwrap().row(), [[13, 1, 1, 0, 8, 2]]);
}

/// "Their records may carry final, link and tone": medial, vowel and tall stay 0.
#[test]
fn an_independent_letter_has_no_medial_and_no_vowel_in_its_record() {
    let heads = [0x1023, 0x1024, 0x1025, 0x1026, 0x1027, 0x1029, 0x102A, 0x104E];
    let endings: [(&[u16], [u8; 4]); 10] = [
        (&[], [0, 0, 0, 0]),
        (&[0x1037], [0, 0, 0, 1]),
        (&[0x1038], [0, 0, 0, 2]),
        (&[0x1020, 0x103A], [33, 0, 1, 0]),
        (&[0x1000, 0x103A, 0x1037], [1, 0, 1, 1]),
        (&[0x1000, 0x103A, 0x1020, 0x103A], [1, 33, 1, 0]),
        (&[0x1020, 0x103A, 0x1000, 0x103A, 0x1038], [33, 1, 1, 2]),
        (&[0x1000, 0x1039, 0x1020], [1, 0, 2, 0]),
        (&[0x1004, 0x103A, 0x1039, 0x1000], [5, 0, 2, 0]),
        (&[0x103F, 0x102C], [31, 0, 3, 0]),
    ];
    for head in heads {
        for (ending, bytes) in endings {
            let expected = [&[(head - 0x1000) as u8, 0, 0, 0][..], &bytes].concat();
            assert_eq!(record(&[&[head], ending].concat(), 0).record[..], expected);
        }
    }
}

#[test]
fn what_only_a_full_syllable_carries_is_refused_elsewhere() {
    for head in [0x1023, 0x1025, 0x102A, 0x104E, 0x104C, 0x1040, 0x104B] {
        for mark in (0x103B..=0x103E).chain(0x102B..=0x1032).chain([0x1036]) {
            assert_eq!(refused(&[head, mark]), (3, 1));
        }
    }
    for head in [0x104C, 0x104D, 0x104F, 0x1040, 0x1049, 0x104A, 0x104B] {
        assert_eq!(refused(&[head, 0x1037]), (3, 1));
        assert_eq!(refused(&[head, 0x1038]), (3, 1));
        // The letter begins a syllable of its own.
        assert_eq!(refused(&[head, 0x1000, 0x103A]), (3, 2));
        assert_eq!(refused(&[head, 0x1000, 0x1039]), (3, 2));
        assert_eq!(refused(&[head, 0x1004, 0x103A, 0x1039, 0x1000]), (3, 2));
    }
}

#[test]
fn the_writer_refuses_what_no_reader_yields() {
    for records in [
        vec![0; 6], // no multiple of eight
        vec![0; 7],
        vec![0; 9],
        vec![0, 0, 0, 0, 0, 6, 0, 0], // second final without a first
        vec![0, 0, 0, 0, 0, 6, 1, 0],
        vec![0, 0, 0, 0, 17, 6, 0, 0], // second final, no link
        vec![0, 0, 0, 0, 17, 6, 2, 0], // second final behind an open stacked one
        vec![0, 0, 0, 0, 17, 6, 2, 0, 0, 0, 0, 0, 0, 0, 0, 0], // behind a stacked one
        vec![0, 0, 0, 0, 5, 6, 2, 0, 2, 0, 0, 0, 0, 0, 0, 0], // behind kinzi
        vec![0, 0, 0, 0, 31, 6, 3, 0, 0x1E, 0, 0, 0, 0, 0, 0, 0], // behind great sa
        vec![0, 0, 0, 0, 17, 34, 1, 0], // second final beyond 1020
        vec![0, 0, 0, 0, 34, 17, 1, 0],
        vec![0, 0, 0, 0, 17, 6, 4, 0],
        vec![0x40, 0, 0, 0, 17, 6, 1, 0], // digit with two finals
        vec![0x4C, 0, 0, 0, 17, 6, 1, 0], // another sign with two finals
        vec![0x4C, 0, 0, 0, 0, 6, 0, 0],  // another sign with a second final alone
        vec![0x25, 0, 1, 0, 17, 6, 1, 0], // I with a vowel and two finals
        vec![0, 0, 2, 1, 0, 0, 0, 0],     // tall without AA
        vec![0, 0, 0, 0, 1, 0, 0, 0],     // final without link
        vec![0, 0, 0, 0, 0, 0, 1, 0],     // link without final
        vec![0, 0, 0, 0, 1, 0, 2, 0],     // open stacked final
        vec![0, 0, 0, 0, 31, 0, 3, 0],    // open great sa
        vec![0, 0, 0, 0, 30, 0, 3, 0, 0x1E, 0, 0, 0, 0, 0, 0, 0], // great sa of another letter
        vec![0, 0, 0, 0, 31, 0, 3, 1, 0x1E, 0, 0, 0, 0, 0, 0, 0], // great sa with a tone
        vec![0, 0, 0, 0, 31, 0, 3, 0, 0x1D, 0, 0, 0, 0, 0, 0, 0], // great sa, other head
        vec![0, 0, 0, 0, 1, 0, 2, 0, 0x21, 0, 0, 0, 0, 0, 0, 0], // 1021 under a stacker
        vec![0, 0, 0, 0, 1, 0, 2, 2, 0, 0, 0, 0, 0, 0, 0, 0], // stacked with a tone
        vec![0x3F, 0, 0, 0, 0, 0, 0, 0],  // great sa as a head
        vec![0x22, 0, 0, 0, 0, 0, 0, 0],  // foreign head
        vec![0x25, 0, 4, 0, 0, 0, 0, 0],  // I with a vowel
        vec![0x25, 0, 0, 1, 0, 0, 0, 0],  // I with a tall AA alone
        vec![0x25, 1, 0, 0, 0, 0, 0, 0],  // I with a medial
        vec![0x23, 0, 2, 0, 1, 0, 1, 0],  // I with a vowel and a final
        vec![0x23, 4, 0, 0, 0, 0, 0, 2],  // I with a medial and a tone
        vec![0x4E, 0, 1, 0, 5, 0, 1, 2],  // 104E with a vowel
        vec![0x4E, 2, 0, 0, 5, 0, 1, 2],  // 104E with a medial
        vec![0x4C, 0, 0, 0, 1, 0, 1, 0],  // another sign with a final
        vec![0x4D, 0, 0, 0, 0, 0, 0, 1],  // another sign with a tone
        vec![0x4F, 0, 0, 0, 1, 0, 2, 0, 0, 0, 0, 0, 0, 0, 0, 0], // another sign, stacked final
        vec![0x4F, 0, 0, 0, 31, 0, 3, 0, 0x1E, 0, 0, 0, 0, 0, 0, 0],
        vec![0x25, 0, 0, 0, 1, 0, 2, 0], // I with an open stacked final
        vec![0x25, 0, 0, 0, 1, 0, 2, 1, 0, 0, 0, 0, 0, 0, 0, 0], // I stacked with a tone
        vec![0, 0, 0, 0, 1, 0, 2, 0, 0x25, 0, 0, 0, 0, 0, 0, 0], // I under a stacker
        vec![0, 0, 0, 0, 1, 0, 2, 0, 0x4E, 0, 0, 0, 0, 0, 0, 0], // 104E under a stacker
        vec![0x40, 0, 0, 0, 0, 0, 0, 1], // digit with a tone
        vec![0x40, 0, 0, 0, 1, 0, 1, 0], // digit with a final
        vec![0x4A, 0, 0, 0, 0, 0, 0, 2], // stop with a tone
        vec![0x4B, 0, 0, 0, 1, 0, 1, 0], // stop with a final
        vec![0, 12, 0, 0, 0, 0, 0, 0],
        vec![0, 0, 13, 0, 0, 0, 0, 0],
        vec![0, 0, 1, 2, 0, 0, 0, 0],
        vec![0, 0, 0, 0, 34, 0, 1, 0],
        vec![0, 0, 0, 0, 1, 0, 4, 0],
        vec![0, 0, 0, 0, 0, 0, 0, 3],
    ] {
        assert_eq!(refused_writing(&records), (6, 0), "{records:?}");
    }
}

#[test]
fn the_writer_takes_what_a_reader_yields() {
    assert_eq!(written(&[]), [] as [u16; 0]);
    assert_eq!(
        written(&[0, 0, 0, 0, 5, 0, 2, 0, 1, 0, 0, 0, 0, 0, 0, 0]),
        [0x1000, 0x1004, 0x103A, 0x1039, 0x1001]
    );
    assert_eq!(written(&[0, 0, 0, 0, 31, 0, 3, 0, 0x1E, 0, 0, 0, 0, 0, 0, 0]), [0x1000, 0x103F]);
    assert_eq!(written(&[0x23, 0, 0, 0, 31, 0, 3, 0, 0x1E, 0, 0, 0, 0, 0, 0, 0]), [0x1023, 0x103F]);
    assert_eq!(
        written(&[0x25, 0, 0, 0, 5, 0, 2, 0, 2, 0, 0, 0, 0, 0, 0, 0]),
        [0x1025, 0x1004, 0x103A, 0x1039, 0x1002]
    );
    assert_eq!(written(&[0x4E, 0, 0, 0, 5, 0, 1, 2]), [0x104E, 0x1004, 0x103A, 0x1038]);
    assert_eq!(written(&[0x29, 0, 0, 0, 0, 0, 0, 1]), [0x1029, 0x1037]);
    assert_eq!(written(&[0x18, 0, 0, 0, 17, 6, 1, 0]), [0x1018, 0x1010, 0x103A, 0x1005, 0x103A]);
    assert_eq!(
        written(&[0x25, 0, 0, 0, 1, 1, 1, 1]),
        [0x1025, 0x1000, 0x103A, 0x1000, 0x103A, 0x1037]
    );
    assert_eq!(written(&[0x4E, 0, 0, 0, 5, 33, 1, 0]), [0x104E, 0x1004, 0x103A, 0x1020, 0x103A]);
    assert_eq!(
        written(&[0, 11, 9, 1, 33, 0, 1, 2]),
        [0x1000, 0x103C, 0x103D, 0x103E, 0x1031, 0x102B, 0x103A, 0x1020, 0x103A, 0x1038]
    );
}

#[test]
fn the_writer_counts_joined_values_and_tests_them_before_the_output() {
    let great_sa = [0x1E, 0, 0, 0, 31, 0, 3, 0];
    let mut records = [great_sa; WORD_LIMIT];
    records[WORD_LIMIT - 1] = [0x1E, 0, 0, 0, 0, 0, 0, 0];
    let records = records.concat();
    assert_eq!(written(&records).len(), WORD_LIMIT);
    let longer = [&great_sa[..], &records].concat();
    let too_short = &mut [0; 3];
    assert_eq!(write(&longer, too_short).unwrap_err(), Refusal { number: 6, place: 0 });
    assert_eq!(write(&records, too_short).unwrap_err(), Refusal { number: 5, place: WORD_LIMIT });
    assert_eq!(*too_short, [0; 3], "a refusal writes nothing");
}

#[test]
fn outputs_are_tested_last_and_left_alone_beyond_what_is_written() {
    let mut output = [7; 3];
    assert_eq!(normalise(&[0x1025, 0x102E], &mut output), Ok(1));
    assert_eq!(output, [0x1026, 7, 7]);
    let refusal = normalise(&[0x1000, 0x1025, 0x102E], &mut output[..1]).unwrap_err();
    assert_eq!(refusal, Refusal { number: 5, place: 2 });
    let refusal = normalise(&[0x1000, 0x1039], &mut []).unwrap_err();
    assert_eq!(refusal, Refusal { number: 3, place: 1 });
    assert_eq!(output, [0x1026, 7, 7]);
}

#[test]
fn the_spelling_tests_values_first_then_starts() {
    let word = [0x1000, 0x103F];
    let (mut values, mut starts) = ([7; 5], [7; 3]);
    let refusal = spell_out(&word, &mut values[..3], &mut starts[..1]).unwrap_err();
    assert_eq!(refusal, Refusal { number: 5, place: 4 });
    let refusal = spell_out(&word, &mut values[..4], &mut starts[..1]).unwrap_err();
    assert_eq!(refusal, Refusal { number: 5, place: 2 });
    assert_eq!((values, starts), ([7; 5], [7; 3]), "a refusal writes nothing");
    spell_out(&word, &mut values, &mut starts).unwrap();
    assert_eq!((values, starts), ([0x1000, 0x101E, 0x103A, 0x101E, 7], [0, 3, 7]));
    let refusal = spell_out(&[0x1000, 0x1014, 0x1037, 0x103A], &mut [], &mut []).unwrap_err();
    assert_eq!(refusal, Refusal { number: 3, place: 3 });
}

#[test]
fn runs_are_sorted_wherever_they_stand() {
    // The outcome 103B 1038 is refused at 0, and so is every other run at the start.
    assert_eq!(refused_normalising(&[0x1038, 0x103B]), (3, 0));
    assert_eq!(refused_normalising(&[0x1040, 0x1038, 0x103B]), (3, 1));
    // After sorting, 103D stands before 102C under the stacked letter.
    assert!(key(&[0x1000, 0x1000, 0x1039, 0x1000, 0x102C, 0x103D]).is_ok());
    assert!(key(&[0x1000, 0x103F, 0x102C, 0x103D]).is_ok());
    assert_eq!(refused_normalising(&[0x1000, 0x102C, 0x102C]), (3, 2));
    assert_eq!(refused_normalising(&[0x1000, 0x1000, 0x1039, 0x102C, 0x103D]), (3, 3));
}

#[test]
fn ties_go_by_the_stored_forms() {
    assert_eq!(compare(&[0x1000, 0x102B], &[0x1000, 0x102C]), Ok(Ordering::Less));
    let (stacked, killed) = ([0x1000, 0x1000, 0x1039, 0x1000], [0x1000, 0x1000, 0x103A, 0x1000]);
    assert_eq!(compare(&stacked, &killed), Ok(Ordering::Less));
    assert_eq!(compare(&[0x1021, 0x102D], &[0x1023]), Ok(Ordering::Less));
    let (marked, independent) = ([0x1021, 0x102F, 0x1000, 0x103A], [0x1025, 0x1000, 0x103A]);
    assert_eq!(key(&marked), key(&independent));
    assert_eq!(compare(&marked, &independent), Ok(Ordering::Less));
    let (marked, independent) = (
        [0x1021, 0x102D, 0x1010, 0x103A, 0x1005, 0x103A],
        [0x1023, 0x1010, 0x103A, 0x1005, 0x103A],
    );
    assert_eq!(key(&marked), key(&independent));
    assert_eq!(compare(&marked, &independent), Ok(Ordering::Less));
    assert_eq!(compare(&[0x1025, 0x102E], &[0x1026]), Ok(Ordering::Equal));
    assert_eq!(compare(&[], &[0x104A]), Ok(Ordering::Less));
    assert_eq!(compare(&[0x1000], &[0x1000, 0x104A]), Ok(Ordering::Less));
}

#[test]
fn the_first_of_two_words_is_tested_whole() {
    let unfinished = [0x1000, 0x1000, 0x1039];
    let refusal = Refusal { number: 4, place: 3 };
    assert_eq!(compare(&unfinished, &[0x1000; WORD_LIMIT + 1]), Err((Which::First, refusal)));
    assert_eq!(compare(&[0x1000], &unfinished), Err((Which::Second, refusal)));
}

#[test]
fn the_unused_bytes_of_a_key_are_zero() {
    let key = key(&[0x1000, 0x104F]).unwrap();
    assert_eq!(key.count(), 2);
    assert_eq!(key.bytes()[..12], [13, 0, 0, 0, 0, 0, 50, 0, 0, 0, 0, 0]);
    assert_eq!(key.bytes()[12..], [0; KEY_SIZE - 12]);
    assert_eq!(Key::ZERO.bytes(), &[0; KEY_SIZE]);
}

#[test]
fn what_the_program_prints_for_no_lines_and_empty_ones() {
    assert_eq!(printed(b""), "");
    assert_eq!(printed(b"\n"), "1 OK 0 -\n");
    assert_eq!(printed(b"\n\n"), "1 OK 0 -\n2 OK 0 -\n");
    assert_eq!(printed(b"\xE1\x80\x80"), "1 OK 1 0D0000000000\n");
    assert_eq!(printed(b"\n\xE1"), "1 OK 0 -\n2 NO 7 0\n");
    assert_eq!(printed("က\r\n".as_bytes()), "1 NO 7 3\n");
    let mut long = "က".repeat(WORD_LIMIT).into_bytes();
    // Two digits a weight, and a hyphen or the line's end behind those of a syllable.
    let length = format!("1 OK {WORD_LIMIT} ").len() + WORD_LIMIT * (2 * WEIGHTS + 1);
    assert_eq!(printed(&long).len(), length);
    long.push(b'\n');
    assert_eq!(printed(&long).len(), length);
    long.insert(0, b' ');
    assert_eq!(printed(&long), format!("1 NO 1 {WORD_LIMIT}\n"));
}
