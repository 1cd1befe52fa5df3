//! Independent vowels and 104E, which carry a final and a tone, and the heads that carry nothing.

mod answers;

use answers::{found, put_at, refused, weights};
use jogcairn::{
    book, normalise, read, spell, stored_form, write, Book, Found, Word, RECORD_SIZE, WEIGHTS,
};

/// A word in its stored form, and for each of its syllables the record, the weights and the
/// spelled form.
type Worked = (&'static [u16], &'static [([u8; RECORD_SIZE], [u8; WEIGHTS], &'static [u16])]);

/// Independent vowels, and 104E, that carry a final, a tone or both.
const CLOSED: [Worked; 9] = [
    (
        &[0x1025, 0x1000, 0x1039, 0x1000],
        &[
            ([0x25, 0, 0, 0, 1, 0, 2, 0], [46, 0, 1, 0, 4, 0], &[0x1025, 0x1000, 0x103A]),
            ([0x00, 0, 0, 0, 0, 0, 0, 0], [13, 0, 0, 0, 0, 0], &[0x1000]),
        ],
    ),
    (
        &[0x104E, 0x1004, 0x103A, 0x1038],
        &[([0x4E, 0, 0, 0, 5, 0, 1, 2], [49, 0, 5, 0, 0, 2], &[0x104E, 0x1004, 0x103A, 0x1038])],
    ),
    (&[0x1029, 0x1038], &[([0x29, 0, 0, 0, 0, 0, 0, 2], [46, 0, 0, 0, 8, 2], &[0x1029, 0x1038])]),
    (
        &[0x1023, 0x1004, 0x103A, 0x1039, 0x1002],
        &[
            ([0x23, 0, 0, 0, 5, 0, 2, 0], [46, 0, 5, 0, 2, 0], &[0x1023, 0x1004, 0x103A]),
            ([0x02, 0, 0, 0, 0, 0, 0, 0], [15, 0, 0, 0, 0, 0], &[0x1002]),
        ],
    ),
    (
        &[0x1023, 0x103F],
        &[
            ([0x23, 0, 0, 0, 31, 0, 3, 0], [46, 0, 31, 0, 2, 0], &[0x1023, 0x101E, 0x103A]),
            ([0x1E, 0, 0, 0, 0, 0, 0, 0], [43, 0, 0, 0, 0, 0], &[0x101E]),
        ],
    ),
    (
        &[0x104E, 0x1000, 0x1039, 0x1000],
        &[
            ([0x4E, 0, 0, 0, 1, 0, 2, 0], [49, 0, 1, 0, 0, 0], &[0x104E, 0x1000, 0x103A]),
            ([0x00, 0, 0, 0, 0, 0, 0, 0], [13, 0, 0, 0, 0, 0], &[0x1000]),
        ],
    ),
    (
        &[0x104E, 0x103F],
        &[
            ([0x4E, 0, 0, 0, 31, 0, 3, 0], [49, 0, 31, 0, 0, 0], &[0x104E, 0x101E, 0x103A]),
            ([0x1E, 0, 0, 0, 0, 0, 0, 0], [43, 0, 0, 0, 0, 0], &[0x101E]),
        ],
    ),
    (
        &[0x1025, 0x1009, 0x103A],
        &[([0x25, 0, 0, 0, 10, 0, 1, 0], [46, 0, 10, 0, 4, 0], &[0x1025, 0x1009, 0x103A])],
    ),
    (&[0x1026, 0x1038], &[([0x26, 0, 0, 0, 0, 0, 0, 2], [46, 0, 0, 0, 5, 2], &[0x1026, 0x1038])]),
];

#[test]
fn independent_letters_carry_finals_and_tones() {
    let mut bytes = [0; 256];
    let mut book = Book::new(&mut bytes);
    for (word, syllables) in CLOSED {
        assert_eq!(normalise(word).unwrap(), word);
        let records: Vec<_> = read(word).unwrap().map(|found| found.record.bytes()).collect();
        assert_eq!(records, syllables.iter().map(|found| found.0).collect::<Vec<_>>());
        assert_eq!(weights(word), syllables.iter().map(|found| found.1).collect::<Vec<_>>());
        let spelled = spell(word).unwrap();
        assert!(spelled.syllables().eq(syllables.iter().map(|found| found.2)), "{word:04X?}");
        assert_eq!(write(&records.concat()).unwrap(), word);
        let start = book.add(word, 61).unwrap().start;
        assert_eq!(book.find(word), Ok(Found { start, stock: 61 }));
    }
}

#[test]
fn independent_letters_are_refused_as_the_document_says() {
    let refusals: [(&[u16], (u8, usize)); 5] = [
        // No tone before 103F, and another sign carries no final.
        (&[0x1023, 0x1038, 0x103F], (3, 2)),
        (&[0x104C, 0x1000, 0x103A], (3, 2)),
        // The stacker waits for a letter, and an independent vowel or a sign is none.
        (&[0x1023, 0x1000, 0x1039], (4, 3)),
        (&[0x1000, 0x1000, 0x1039, 0x1025], (3, 3)),
        (&[0x1000, 0x1000, 0x1039, 0x104E], (3, 3)),
    ];
    for (word, refusal) in refusals {
        assert_eq!(refused(read(word)), refusal);
        assert_eq!(refused(normalise(word)), refusal);
    }
}

/// The heads that carry a final and a tone and nothing else, with their head and vowel weights.
const CLOSING: [(u16, u8, u8); 8] = [
    (0x1023, 46, 2),
    (0x1024, 46, 3),
    (0x1025, 46, 4),
    (0x1026, 46, 5),
    (0x1027, 46, 6),
    (0x1029, 46, 8),
    (0x102A, 46, 9),
    (0x104E, 49, 0),
];

/// The medials and the vowel marks.
fn marks() -> impl Iterator<Item = u16> {
    (0x103B..=0x103E).chain(0x102B..=0x1032).chain([0x1036])
}

#[test]
fn an_independent_letter_carries_a_final_and_a_tone_but_no_other_mark() {
    for (head, weight, vowel) in CLOSING {
        assert_eq!(weights(&[head, 0x1014, 0x103A, 0x1037]), [[weight, 0, 21, 0, vowel, 1]]);
        assert_eq!(weights(&[head, 0x1037]), [[weight, 0, 0, 0, vowel, 1]]);
        for mark in marks() {
            assert_eq!(refused(read(&[head, mark])), (3, 1));
        }
    }
}

#[test]
fn a_digit_a_stop_and_another_sign_carry_nothing() {
    for head in (0x1040..=0x104F).filter(|&head| head != 0x104E) {
        assert_eq!(read(&[head]).unwrap().len(), 1);
        assert_eq!(refused(read(&[head, 0x1014, 0x103A])), (3, 2));
        for mark in marks().chain([0x1037, 0x1038, 0x103F]) {
            assert_eq!(refused(read(&[head, mark])), (3, 1));
        }
    }
}

#[test]
fn the_writer_takes_no_more_than_an_independent_letter_carries() {
    let rows: [&[u8]; 6] = [
        // A medial, a vowel, and another sign with a final.
        &[0x25, 1, 0, 0, 0, 0, 0, 0],
        &[0x4E, 0, 3, 0, 5, 0, 1, 2],
        &[0x4C, 0, 0, 0, 1, 0, 1, 0],
        // A tone before great sa, a stacked final at the end, and one with ဥ under it.
        &[0x23, 0, 0, 0, 31, 0, 3, 2, 0x1E, 0, 0, 0, 0, 0, 0, 0],
        &[0x25, 0, 0, 0, 1, 0, 2, 0],
        &[0x25, 0, 0, 0, 1, 0, 2, 0, 0x25, 0, 0, 0, 0, 0, 0, 0],
    ];
    for row in rows {
        assert_eq!(refused(write(row)), (6, 0));
    }
}

#[test]
fn a_1025_is_stored_by_its_direct_neighbour() {
    let stored: [(&[u16], &[u16]); 4] = [
        (&[0x1025, 0x1000, 0x1039, 0x1000], &[0x1025, 0x1000, 0x1039, 0x1000]),
        (&[0x1025, 0x1025, 0x103A], &[0x1025, 0x1009, 0x103A]),
        (&[0x1025, 0x1038, 0x102E], &[0x1026, 0x1038]),
        (&[0x104E, 0x1004, 0x1038, 0x103A], &[0x104E, 0x1004, 0x103A, 0x1038]),
    ];
    for (typed, form) in stored {
        assert_eq!(normalise(typed).unwrap(), form);
    }
    assert_eq!(stored_form(&[0x1025, 0x103A]).unwrap(), [0x1009, 0x103A]);
    assert_eq!(refused(normalise(&[0x1025, 0x103A])), (3, 1));
}

/// A book of letters that carry nothing: 1025 1015 1012 1031, 104E, 1021, 1025, 102A 104F, and 1026,
/// which is removed.
const BARE: &[u8; 52] = b"MW\x04\x01\0\0\0\x25\x15\x12\x31\
    MW\x01\x02\0\0\0\x4E\
    MW\x01\x03\0\0\0\x21\
    MW\x01\x04\0\0\0\x25\
    MW\x02\x05\0\0\0\x2A\x4F\
    M-\x01\x06\0\0\0\x26";

#[test]
fn a_book_of_letters_that_carry_nothing_is_a_book() {
    assert_eq!(book::check(BARE), Ok(5));
    assert_eq!(book::order(BARE).unwrap(), [19, 27, 0, 35, 11]);
    assert_eq!(book::find(BARE, &[0x104E]), Ok(Found { start: 11, stock: 2 }));
    assert_eq!(book::find(BARE, &[0x102A, 0x104F]), Ok(Found { start: 35, stock: 5 }));
    assert_eq!(refused(book::find(BARE, &[0x1026])), (13, 0));
    assert_eq!(book::find_prefix(BARE, &[0x1025]).unwrap(), [27, 0]);
}

#[test]
fn independent_letters_with_finals_are_filed_beside_those_without() {
    let mut bytes = [0; 74];
    bytes[..52].copy_from_slice(BARE);
    let mut book = Book::new(&mut bytes);
    assert_eq!(book.add(&"ဥက္က".parse::<Word>().unwrap(), 7), put_at(52));
    assert_eq!(book.add(&"၎င်း".parse::<Word>().unwrap(), 8), put_at(63));
    assert_eq!(book.order().unwrap(), [19, 27, 0, 35, 52, 11, 63]);
    assert_eq!(found(&book, "ဥက်"), [52]);
    assert_eq!(found(&book, "အုက္က"), [52]);
    assert_eq!(found(&book, "ဥ"), [27, 0]);
    assert_eq!(found(&book, "၎"), [11]);
    assert_eq!(bytes[..52], *BARE);
    assert_eq!(bytes[52..], *b"MW\x04\x07\0\0\0\x25\0\x39\0MW\x04\x08\0\0\0\x4E\x04\x3A\x38");
}
