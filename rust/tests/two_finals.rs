//! Syllables with two plain finals, and what stays refused behind a plain final.

mod answers;

use answers::{found, put_at, refused, weights};
use jogcairn::{
    book, compare, key_into, normalise, part, read, record, record_into, spell, stored_form, write,
    write_into, Book, Found, Link, Word, KEY_SIZE, RECORD_SIZE, WEIGHTS, WORD_LIMIT,
};
use std::cmp::Ordering;

/// A word in its stored form, and for each of its syllables the part of the word, the record, the
/// weights and the spelled form.
type Worked = (&'static [u16], &'static [Syllable]);
type Syllable = (&'static [u16], [u8; RECORD_SIZE], [u8; WEIGHTS], &'static [u16]);

/// ဘတ်စ်, a brand name.
const BRAND: [u16; 5] = [0x1018, 0x1010, 0x103A, 0x1005, 0x103A];

/// Two finals by themselves, with every other piece, on each kind of head, and beside syllables
/// that have one final or none.
const CLOSED: [Worked; 10] = [
    (&BRAND, &[(&BRAND, [0x18, 0, 0, 0, 17, 6, 1, 0], [37, 0, 17, 6, 0, 0], &BRAND)]),
    (
        &[0x1018, 0x1010, 0x103A, 0x1005, 0x103A, 0x1038],
        &[(
            &[0x1018, 0x1010, 0x103A, 0x1005, 0x103A, 0x1038],
            [0x18, 0, 0, 0, 17, 6, 1, 2],
            [37, 0, 17, 6, 0, 2],
            &[0x1018, 0x1010, 0x103A, 0x1005, 0x103A, 0x1038],
        )],
    ),
    // The same letter twice.
    (
        &[0x1000, 0x1000, 0x103A, 0x1000, 0x103A],
        &[(
            &[0x1000, 0x1000, 0x103A, 0x1000, 0x103A],
            [0x00, 0, 0, 0, 1, 1, 1, 0],
            [13, 0, 1, 1, 0, 0],
            &[0x1000, 0x1000, 0x103A, 0x1000, 0x103A],
        )],
    ),
    // 1004 103A, which before 1039 would be kinzi, as the first and as the second.
    (
        &[0x1021, 0x1004, 0x103A, 0x1004, 0x103A],
        &[(
            &[0x1021, 0x1004, 0x103A, 0x1004, 0x103A],
            [0x21, 0, 0, 0, 5, 5, 1, 0],
            [46, 0, 5, 5, 0, 0],
            &[0x1021, 0x1004, 0x103A, 0x1004, 0x103A],
        )],
    ),
    // A medial, the longest vowel with a tall AA, the last letter as second final, and a tone.
    (
        &[0x1015, 0x103C, 0x1031, 0x102B, 0x103A, 0x1000, 0x103A, 0x1020, 0x103A, 0x1037],
        &[(
            &[0x1015, 0x103C, 0x1031, 0x102B, 0x103A, 0x1000, 0x103A, 0x1020, 0x103A, 0x1037],
            [0x15, 2, 9, 1, 1, 33, 1, 1],
            [34, 2, 1, 33, 9, 1],
            &[0x1015, 0x103C, 0x1031, 0x102B, 0x103A, 0x1000, 0x103A, 0x1020, 0x103A, 0x1037],
        )],
    ),
    // An independent vowel and 104E.
    (
        &[0x1025, 0x1000, 0x103A, 0x1005, 0x103A, 0x1037],
        &[(
            &[0x1025, 0x1000, 0x103A, 0x1005, 0x103A, 0x1037],
            [0x25, 0, 0, 0, 1, 6, 1, 1],
            [46, 0, 1, 6, 4, 1],
            &[0x1025, 0x1000, 0x103A, 0x1005, 0x103A, 0x1037],
        )],
    ),
    (
        &[0x104E, 0x1004, 0x103A, 0x1010, 0x103A, 0x1038],
        &[(
            &[0x104E, 0x1004, 0x103A, 0x1010, 0x103A, 0x1038],
            [0x4E, 0, 0, 0, 5, 17, 1, 2],
            [49, 0, 5, 17, 0, 2],
            &[0x104E, 0x1004, 0x103A, 0x1010, 0x103A, 0x1038],
        )],
    ),
    // ဘတ်စ်ကား: the letter behind two finals is a head.
    (
        &[0x1018, 0x1010, 0x103A, 0x1005, 0x103A, 0x1000, 0x102C, 0x1038],
        &[
            (&BRAND, [0x18, 0, 0, 0, 17, 6, 1, 0], [37, 0, 17, 6, 0, 0], &BRAND),
            (
                &[0x1000, 0x102C, 0x1038],
                [0x00, 0, 1, 0, 0, 0, 0, 2],
                [13, 0, 0, 0, 1, 2],
                &[0x1000, 0x102C, 0x1038],
            ),
        ],
    ),
    // Under a stacked letter, and on great sa.
    (
        &[0x1000, 0x1000, 0x1039, 0x1010, 0x1014, 0x103A, 0x1005, 0x103A],
        &[
            (
                &[0x1000, 0x1000, 0x1039],
                [0x00, 0, 0, 0, 1, 0, 2, 0],
                [13, 0, 1, 0, 0, 0],
                &[0x1000, 0x1000, 0x103A],
            ),
            (
                &[0x1010, 0x1014, 0x103A, 0x1005, 0x103A],
                [0x10, 0, 0, 0, 21, 6, 1, 0],
                [29, 0, 21, 6, 0, 0],
                &[0x1010, 0x1014, 0x103A, 0x1005, 0x103A],
            ),
        ],
    ),
    (
        &[0x1015, 0x103F, 0x1010, 0x103A, 0x1005, 0x103A],
        &[
            (
                &[0x1015],
                [0x15, 0, 0, 0, 31, 0, 3, 0],
                [34, 0, 31, 0, 0, 0],
                &[0x1015, 0x101E, 0x103A],
            ),
            (
                &[0x103F, 0x1010, 0x103A, 0x1005, 0x103A],
                [0x1E, 0, 0, 0, 17, 6, 1, 0],
                [43, 0, 17, 6, 0, 0],
                &[0x101E, 0x1010, 0x103A, 0x1005, 0x103A],
            ),
        ],
    ),
];

#[test]
fn a_plain_final_takes_a_second_one() {
    let mut bytes = [0; 256];
    let mut book = Book::new(&mut bytes);
    for (word, syllables) in CLOSED {
        assert_eq!(normalise(word).unwrap(), word);
        assert_eq!(read(word).unwrap().len(), syllables.len());
        for (number, &(values, bytes, ..)) in syllables.iter().enumerate() {
            assert_eq!(part(word, number), Ok(Some(values)));
            assert_eq!(record(word, number).unwrap().unwrap().bytes(), bytes);
        }
        assert_eq!(weights(word), syllables.iter().map(|found| found.2).collect::<Vec<_>>());
        let spelled = spell(word).unwrap();
        assert!(spelled.syllables().eq(syllables.iter().map(|found| found.3)), "{word:04X?}");
        let records: Vec<u8> = syllables.iter().flat_map(|found| found.1).collect();
        assert_eq!(write(&records).unwrap(), word);
        let start = book.add(word, 61).unwrap().start;
        assert_eq!(book.find(word), Ok(Found { start, stock: 61 }));
    }
}

#[test]
fn a_record_names_both_letters_and_one_link() {
    let brand = record(&BRAND, 0).unwrap().unwrap();
    assert_eq!(brand.final_letter(), Some(0x1010));
    assert_eq!(brand.second_final_letter(), Some(0x1005));
    assert_eq!(brand.link(), Some(Link::Plain));
    let lone = record(&BRAND[..3], 0).unwrap().unwrap();
    assert_eq!((lone.final_letter(), lone.second_final_letter()), (Some(0x1010), None));
    assert_eq!(record(&BRAND, 1), Ok(None));
}

#[test]
fn a_record_is_written_to_the_front_of_what_is_lent() {
    let pattern: [u8; RECORD_SIZE + 1] = [0xA0, 0xA1, 0xA2, 0xA3, 0xA4, 0xA5, 0xA6, 0xA7, 0xA8];
    let written = [0x18, 0, 0, 0, 17, 6, 1, 0, 0xA8];
    for room in 0..=pattern.len() {
        let mut output = pattern;
        let answer = record_into(&BRAND, 0, &mut output[..room]);
        if room < RECORD_SIZE {
            assert_eq!(refused(answer), (5, RECORD_SIZE));
            assert_eq!(output, pattern);
        } else {
            assert_eq!(answer, Ok(Some(RECORD_SIZE)));
            assert_eq!(output, written);
        }
        // No syllable, and no word: nothing is written, and the room is not asked for.
        output = pattern;
        assert_eq!(record_into(&BRAND, 1, &mut output[..room]), Ok(None));
        assert_eq!(refused(record_into(&[0x1000, 0x103A], 0, &mut output[..room])), (3, 1));
        assert_eq!(output, pattern);
    }
}

#[test]
fn what_follows_a_plain_final_is_refused_as_the_document_says() {
    let refusals: [(&[u16], (u8, usize)); 12] = [
        // A third final: its letter is a head, which takes no killer.
        (&[0x1000, 0x1000, 0x103A, 0x1005, 0x103A, 0x1019, 0x103A], (3, 6)),
        // Kinzi, a stacked final and great sa behind a plain final, and behind two.
        (&[0x1000, 0x1000, 0x103A, 0x1004, 0x103A, 0x1039], (3, 5)),
        (&[0x1000, 0x1000, 0x103A, 0x1005, 0x1039], (3, 4)),
        (&[0x1000, 0x1000, 0x103A, 0x103F], (3, 3)),
        (&[0x1000, 0x1000, 0x103A, 0x1005, 0x103A, 0x1039], (3, 5)),
        (&[0x1000, 0x1000, 0x103A, 0x1005, 0x103A, 0x103F], (3, 5)),
        // A tone between the finals, and two behind them.
        (&[0x1000, 0x1010, 0x103A, 0x1037, 0x1005, 0x103A], (3, 5)),
        (&[0x1000, 0x1010, 0x103A, 0x1005, 0x103A, 0x1037, 0x1038], (3, 6)),
        // 1021 is no final letter, a letter under another is a head, a digit carries no final.
        (&[0x1000, 0x1000, 0x103A, 0x1021, 0x103A], (3, 4)),
        (&[0x1000, 0x1000, 0x1039, 0x1005, 0x103A], (3, 4)),
        (&[0x1040, 0x1000, 0x103A, 0x1005, 0x103A], (3, 2)),
        // The syllable behind two finals waits for the letter under its stacker.
        (&[0x1000, 0x1000, 0x103A, 0x1005, 0x103A, 0x1019, 0x1000, 0x1039], (4, 8)),
    ];
    for (word, refusal) in refusals {
        assert_eq!(refused(read(word)), refusal, "{word:04X?}");
        assert_eq!(refused(normalise(word)), refusal, "{word:04X?}");
    }
}

#[test]
fn the_runs_of_two_finals_are_sorted_apart() {
    // The tone goes behind the killer of its own run, and so stays between the finals.
    let between = [0x1000, 0x1010, 0x1037, 0x103A, 0x1005, 0x103A];
    assert_eq!(stored_form(&between).unwrap(), [0x1000, 0x1010, 0x103A, 0x1037, 0x1005, 0x103A]);
    assert_eq!(refused(normalise(&between)), (3, 5));
    assert_eq!(refused(read(&between)), (3, 3));
    // Behind the second killer it is the tone of the syllable, in whichever order it was typed.
    let behind = [0x1000, 0x1010, 0x103A, 0x1005, 0x1037, 0x103A];
    let stored = [0x1000, 0x1010, 0x103A, 0x1005, 0x103A, 0x1037];
    assert_eq!(normalise(&behind).unwrap(), stored);
    // A 1025 before a killer is stored as 1009, as the second final too.
    let typed = [0x1000, 0x1000, 0x103A, 0x1025, 0x103A];
    assert_eq!(normalise(&typed).unwrap(), [0x1000, 0x1000, 0x103A, 0x1009, 0x103A]);
    assert_eq!(weights(&typed), [[13, 0, 1, 10, 0, 0]]);
    assert_eq!(refused(read(&typed)), (3, 4));
}

#[test]
fn the_writer_asks_a_plain_first_for_a_second_final() {
    let rows: [&[u8]; 12] = [
        // A second final without a first, with and without a link.
        &[0x00, 0, 0, 0, 0, 6, 0, 0],
        &[0x00, 0, 0, 0, 0, 6, 1, 0],
        // Two finals with no link, stacked, and with great sa.
        &[0x00, 0, 0, 0, 17, 6, 0, 0],
        &[0x00, 0, 0, 0, 17, 6, 2, 0, 0x00, 0, 0, 0, 0, 0, 0, 0],
        &[0x00, 0, 0, 0, 31, 6, 3, 0, 0x1E, 0, 0, 0, 0, 0, 0, 0],
        // No letter has the number 34, and a digit carries no final.
        &[0x00, 0, 0, 0, 17, 34, 1, 0],
        &[0x40, 0, 0, 0, 17, 6, 1, 0],
        // Lengths that are no multiple of eight, a record of seven bytes among them.
        &[0x00, 0, 0, 0, 17, 1, 0],
        &[0x18, 0, 0, 0, 17, 6, 1],
        &[0x18, 0, 0, 0, 17, 6, 1, 0, 0],
        &[0x00, 0, 0, 0, 0, 0, 0, 0, 0x00, 0, 0, 0, 0, 0, 0],
        &[0],
    ];
    for row in rows {
        assert_eq!(refused(write(row)), (6, 0), "{row:?}");
    }
}

#[test]
fn a_word_of_two_finals_asks_its_room() {
    let brand = [0x18, 0, 0, 0, 17, 6, 1, 0];
    let mut word = [7; 6];
    assert_eq!(refused(write_into(&brand, &mut word[..4])), (5, 5));
    assert_eq!(word, [7; 6]);
    assert_eq!(write_into(&brand, &mut word), Ok(5));
    assert_eq!(word, [0x1018, 0x1010, 0x103A, 0x1005, 0x103A, 7]);
    let mut key = [0xEE; KEY_SIZE + 1];
    assert_eq!(refused(key_into(&BRAND, &mut key[..KEY_SIZE - 1])), (5, KEY_SIZE));
    assert_eq!(key, [0xEE; KEY_SIZE + 1]);
    assert_eq!(key_into(&BRAND, &mut key), Ok(1));
    assert_eq!(key[..WEIGHTS], [37, 0, 17, 6, 0, 0]);
    assert_eq!(key[WEIGHTS..KEY_SIZE], [0; KEY_SIZE - WEIGHTS]);
    assert_eq!(key[KEY_SIZE], 0xEE);
}

#[test]
fn the_longest_word_is_full_of_syllables_of_two_finals() {
    // As many as go into it, and letters behind them.
    let (brands, letters) = (WORD_LIMIT / BRAND.len(), WORD_LIMIT % BRAND.len());
    let word = [BRAND.repeat(brands), vec![0x1000; letters]].concat();
    let rows = [vec![[37, 0, 17, 6, 0, 0]; brands], vec![[13, 0, 0, 0, 0, 0]; letters]].concat();
    assert_eq!((word.len(), read(&word).unwrap().len()), (WORD_LIMIT, brands + letters));
    assert_eq!(weights(&word), rows);
    assert_eq!(spell(&word).unwrap().values(), word);
    let ka = [0; RECORD_SIZE];
    let records = [[0x18, 0, 0, 0, 17, 6, 1, 0].repeat(brands), ka.repeat(letters)].concat();
    assert_eq!(write(&records).unwrap(), word);
    // One letter more is too long for the reader, and for the writer no row.
    assert_eq!(refused(read(&[&word[..], &[0x1000]].concat())), (1, WORD_LIMIT));
    assert_eq!(refused(write(&[&records[..], &ka].concat())), (6, 0));
}

#[test]
fn the_second_final_is_weighed_behind_the_first_and_before_the_vowel() {
    let filed: [&[u16]; 7] = [
        &[0x1000],
        &[0x1000, 0x102C],
        &[0x1000, 0x1000, 0x103A],
        // The heaviest vowel and tone with one final, then the lightest second final.
        &[0x1000, 0x102F, 0x1036, 0x1000, 0x103A, 0x1038],
        &[0x1000, 0x1000, 0x103A, 0x1000, 0x103A],
        // The heaviest second final, then the next first one.
        &[0x1000, 0x1000, 0x103A, 0x1020, 0x103A],
        &[0x1000, 0x1001, 0x103A],
    ];
    for (at, first) in filed.iter().enumerate() {
        for (other, second) in filed.iter().enumerate() {
            assert_eq!(compare(first, second), Ok(at.cmp(&other)));
        }
    }
    // The finals exchanged weigh otherwise.
    let exchanged = [0x1018, 0x1005, 0x103A, 0x1010, 0x103A];
    assert_eq!(weights(&exchanged), [[37, 0, 6, 17, 0, 0]]);
    assert_eq!(compare(&exchanged, &BRAND), Ok(Ordering::Less));
}

/// A book whose words have one final or none: 1018 1010 103A, 1018, 1018 1010 1039 1010 102C, and
/// 1018 102C, which is removed.
const SINGLE: &[u8; 39] = b"MW\x03\x01\0\0\0\x18\x10\x3A\
    MW\x01\x02\0\0\0\x18\
    MW\x05\x03\0\0\0\x18\x10\x39\x10\x2C\
    M-\x02\x04\0\0\0\x18\x2C";

#[test]
fn a_book_of_single_finals_is_a_book() {
    assert_eq!(book::check(SINGLE), Ok(3));
    assert_eq!(book::order(SINGLE).unwrap(), [10, 0, 18]);
    assert_eq!(book::find(SINGLE, &BRAND[..3]), Ok(Found { start: 0, stock: 1 }));
    assert_eq!(refused(book::find(SINGLE, &[0x1018, 0x102C])), (13, 0));
    assert_eq!(refused(book::find(SINGLE, &BRAND)), (13, 0));
    assert_eq!(book::find_prefix(SINGLE, &BRAND[..3]).unwrap(), [0, 18]);
    assert_eq!(book::rank(SINGLE, 2), Ok(Found { start: 18, stock: 3 }));
}

#[test]
fn words_of_two_finals_are_filed_behind_those_of_one() {
    let mut bytes = [0; 66];
    bytes[..39].copy_from_slice(SINGLE);
    let mut book = Book::new(&mut bytes);
    assert_eq!(book.add(&"ဘတ်စ်".parse::<Word>().unwrap(), 5), put_at(39));
    assert_eq!(book.add(&"ဘတ်စ်ကား".parse::<Word>().unwrap(), 6), put_at(51));
    assert_eq!(refused(book.add(&BRAND, 7)), (12, 39));
    assert_eq!(book.order().unwrap(), [10, 0, 18, 39, 51]);
    assert_eq!(book.rank(3), Ok(Found { start: 39, stock: 5 }));
    // A syllable of one final does not find one of two, and nor the other way round.
    assert_eq!(found(&book, "ဘတ်"), [0, 18]);
    assert_eq!(found(&book, "ဘတ်စ်"), [39, 51]);
    assert_eq!(found(&book, "ဘတ်စ်ကား"), [51]);
    assert_eq!(found(&book, "ဘတ်စ်က"), []);
    assert_eq!(book.remove(&BRAND), Ok(39));
    assert_eq!(found(&book, "ဘတ်စ်"), [51]);
    assert_eq!(bytes[..39], *SINGLE);
    assert_eq!(
        bytes[39..],
        *b"M-\x05\x05\0\0\0\x18\x10\x3A\x05\x3AMW\x08\x06\0\0\0\x18\x10\x3A\x05\x3A\x00\x2C\x38"
    );
}

#[test]
fn a_book_may_not_hold_a_third_final() {
    let mut bytes = *b"MW\x07\x01\0\0\0\0\0\x3A\x05\x3A\x19\x3A";
    assert_eq!(refused(Book::new(&mut bytes).check()), (11, 0));
    let mut two = *b"MW\x05\x01\0\0\0\0\0\x3A\x05\x3A";
    assert_eq!(Book::new(&mut two).check(), Ok(1));
}
