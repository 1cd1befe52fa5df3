//! The formula taken literally: rows are put together from syllables, joined,
//! and every short list is compared with them.

use oracle::limits::WORD_LIMIT;
use oracle::rows::longest_viable_beginning;
use oracle::syllable::Record;
use oracle::{read, write};
use std::collections::{HashMap, HashSet};

/// What a syllable asks of the next one.
#[derive(Clone, Copy, PartialEq, Eq)]
enum Next {
    Anything,
    Letter,
    GreatSa,
}

struct Part {
    values: Vec<u16>,
    record: Record,
    begun_by: Next,
    next: Next,
}

/// The values that the literal rows are made of: of each class some, and all
/// that the rules name.
struct Alphabet {
    heads: &'static [u16],
    finals: &'static [u16],
    medials: &'static [u16],
    vowels: &'static [(&'static [u16], u8, u8)],
    tones: &'static [u16],
    /// Heads that take a final and a tone, but no medial and no vowel mark.
    markless: &'static [u16],
    /// Heads that carry nothing.
    alone: &'static [u16],
}

const SMALL: Alphabet = Alphabet {
    heads: &[0x1000, 0x1004, 0x1021],
    finals: &[0x1000, 0x1004],
    medials: &[0x103B, 0x103C, 0x103D],
    vowels: &[
        (&[], 0, 0),
        (&[0x102C], 1, 0),
        (&[0x102D], 2, 0),
        (&[0x102F], 4, 0),
        (&[0x1031], 6, 0),
        (&[0x1031, 0x102C], 8, 0),
        (&[0x1031, 0x102C, 0x103A], 9, 0),
        (&[0x1036], 10, 0),
        (&[0x102D, 0x102F], 11, 0),
        (&[0x102F, 0x1036], 12, 0),
    ],
    tones: &[0x1037],
    markless: &[0x1025, 0x104E],
    alone: &[0x104C],
};

const SMALL_VALUES: [u16; 18] = [
    0x1000, 0x1004, 0x1021, 0x1025, 0x103B, 0x103C, 0x103D, 0x102C, 0x102D, 0x102F, 0x1031, 0x1036,
    0x1037, 0x1039, 0x103A, 0x103F, 0x104C, 0x104E,
];

/// Finals and tones with a head of each kind that carries them, for longer lists.
const FINALS: Alphabet = Alphabet {
    heads: &[0x1000, 0x1004],
    finals: &[0x1000, 0x1004],
    medials: &[],
    vowels: &[(&[], 0, 0)],
    tones: &[0x1037],
    markless: &[0x1025],
    alone: &[],
};

const FINALS_VALUES: [u16; 7] = [0x1000, 0x1004, 0x1025, 0x1037, 0x1039, 0x103A, 0x103F];

/// All sets of the given medials without Y and R together, each with its weight.
fn medial_groups(medials: &[u16]) -> Vec<(Vec<u16>, u8)> {
    let groups: [&[u16]; 12] = [
        &[],
        &[0x103B],
        &[0x103C],
        &[0x103D],
        &[0x103E],
        &[0x103B, 0x103D],
        &[0x103C, 0x103D],
        &[0x103B, 0x103E],
        &[0x103C, 0x103E],
        &[0x103D, 0x103E],
        &[0x103B, 0x103D, 0x103E],
        &[0x103C, 0x103D, 0x103E],
    ];
    let numbered = groups.iter().zip(0..).map(|(group, weight)| (group.to_vec(), weight));
    numbered.filter(|(group, _)| group.iter().all(|medial| medials.contains(medial))).collect()
}

/// All endings: values of finals and tone, the four bytes that a record ends with, and
/// what they ask of the next syllable.
fn endings(alphabet: &Alphabet) -> Vec<(Vec<u16>, [u8; 4], Next)> {
    let weight = |letter: u16| (letter - 0x0FFF) as u8;
    let mut endings = vec![(vec![], [31, 0, 3, 0], Next::GreatSa)];
    let mut with_tones = |values: Vec<u16>, [first, second, link]: [u8; 3]| {
        endings.push((values.clone(), [first, second, link, 0], Next::Anything));
        for &tone in alphabet.tones {
            let toned = [&values[..], &[tone]].concat();
            endings.push((toned, [first, second, link, (tone - 0x1036) as u8], Next::Anything));
        }
    };
    with_tones(vec![], [0, 0, 0]);
    for &first in alphabet.finals {
        with_tones(vec![first, 0x103A], [weight(first), 0, 1]);
        for &second in alphabet.finals {
            let values = vec![first, 0x103A, second, 0x103A];
            with_tones(values, [weight(first), weight(second), 1]);
        }
    }
    for &letter in alphabet.finals {
        let stacked =
            if letter == 0x1004 { vec![0x1004, 0x103A, 0x1039] } else { vec![letter, 0x1039] };
        endings.push((stacked, [weight(letter), 0, 2, 0], Next::Letter));
    }
    endings
}

/// All syllables that the head begins, as the parts that they have in a word.
fn parts_begun_by(head: (u16, u8, Next), alphabet: &Alphabet) -> Vec<Part> {
    let (head, head_byte, begun_by) = head;
    let mut parts = Vec::new();
    for (group, medial) in medial_groups(alphabet.medials) {
        for &(vowel_values, vowel, tall) in alphabet.vowels {
            for (ending, [first, second, link, tone], next) in endings(alphabet) {
                let values = [&[head], &group[..], vowel_values, &ending[..]].concat();
                let record = [head_byte, medial, vowel, tall, first, second, link, tone];
                parts.push(Part { values, record, begun_by, next });
            }
        }
    }
    parts
}

/// All syllables over the alphabet.
fn parts(alphabet: &Alphabet) -> Vec<Part> {
    let as_letter = |head: u16, begun_by| (head, (head - 0x1000) as u8, begun_by);
    let mut heads = vec![(0x103F, 0x1E, Next::GreatSa)];
    for &head in alphabet.heads {
        heads.push(as_letter(head, Next::Anything));
        if head <= 0x1020 {
            heads.push(as_letter(head, Next::Letter));
        }
    }
    let full = heads.into_iter().flat_map(|head| parts_begun_by(head, alphabet));
    let without_marks = Alphabet { medials: &[], vowels: &[(&[], 0, 0)], ..*alphabet };
    let markless = alphabet.markless.iter().map(|&head| as_letter(head, Next::Anything));
    let markless = markless.flat_map(|head| parts_begun_by(head, &without_marks));
    let alone = alphabet.alone.iter().map(|&value| Part {
        values: vec![value],
        record: [(value - 0x1000) as u8, 0, 0, 0, 0, 0, 0, 0],
        begun_by: Next::Anything,
        next: Next::Anything,
    });
    full.chain(markless).chain(alone).collect()
}

type Rows = HashMap<Vec<u16>, Vec<u8>>;

/// Puts every row of at most `limit` values that goes on after `values` into `rows`.
fn gather(
    parts: &[Part],
    limit: usize,
    values: &[u16],
    records: &[u8],
    next: Next,
    rows: &mut Rows,
) {
    if next == Next::Anything {
        let other = rows.insert(values.to_vec(), records.to_vec());
        assert!(other.is_none(), "two rows give {values:04X?}");
    }
    let fitting = |part: &&Part| part.begun_by == next && values.len() + part.values.len() <= limit;
    for part in parts.iter().filter(fitting) {
        let values = [values, &part.values].concat();
        let records = [records, &part.record].concat();
        gather(parts, limit, &values, &records, part.next, rows);
    }
}

fn each_list(values: &[u16], length: usize, visit: &mut impl FnMut(&[u16])) {
    let mut digits = vec![0; length];
    loop {
        visit(&digits.iter().map(|&digit: &usize| values[digit]).collect::<Vec<u16>>());
        let Some(place) = digits.iter().rposition(|&digit| digit + 1 < values.len()) else {
            return;
        };
        digits[place] += 1;
        digits[place + 1..].fill(0);
    }
}

#[test]
fn every_short_list_is_read_as_the_literal_rows_say() {
    read_as_literal_rows(&SMALL, &SMALL_VALUES, 4);
}

/// Seven values hold a third final behind two, and a tone behind two on the second of two
/// syllables.
#[test]
fn every_list_of_finals_is_read_as_the_literal_rows_say() {
    read_as_literal_rows(&FINALS, &FINALS_VALUES, 7);
}

/// Every list of up to so many of the values. A viable beginning lacks at most one value,
/// so rows of one value more hold all of them.
fn read_as_literal_rows(alphabet: &Alphabet, values: &[u16], limit: usize) {
    let mut rows = Rows::new();
    gather(&parts(alphabet), limit + 1, &[], &[], Next::Anything, &mut rows);
    let viable: HashSet<&[u16]> =
        rows.keys().flat_map(|row| (0..=row.len()).map(|length| &row[..length])).collect();
    for length in 0..=limit {
        each_list(values, length, &mut |list| {
            let longest = (0..=length).rev().find(|&end| viable.contains(&list[..end])).unwrap();
            assert_eq!(longest_viable_beginning(list), longest, "{list:04X?}");
            match (rows.get(list), read(list)) {
                (Some(records), Ok(reading)) => {
                    let read: Vec<u8> =
                        reading.syllables().iter().flat_map(|syllable| syllable.record).collect();
                    assert_eq!(*records, read, "{list:04X?}");
                }
                (None, Err(refusal)) => {
                    let number = if longest < length { 3 } else { 4 };
                    assert_eq!((refusal.number, refusal.place), (number, longest), "{list:04X?}");
                }
                (row, _) => panic!("{list:04X?} is read otherwise than {row:?}"),
            }
        });
    }
}

/// Each syllable that there is, after a syllable that lets it begin and before one
/// that it asks for: read to its record, and written back.
#[test]
fn every_single_syllable_is_read_and_written_back() {
    let vowels: &[(&[u16], u8, u8)] = &[
        (&[], 0, 0),
        (&[0x102B], 1, 1),
        (&[0x102C], 1, 0),
        (&[0x102D], 2, 0),
        (&[0x102E], 3, 0),
        (&[0x102F], 4, 0),
        (&[0x1030], 5, 0),
        (&[0x1031], 6, 0),
        (&[0x1032], 7, 0),
        (&[0x1031, 0x102B], 8, 1),
        (&[0x1031, 0x102C], 8, 0),
        (&[0x1031, 0x102B, 0x103A], 9, 1),
        (&[0x1031, 0x102C, 0x103A], 9, 0),
        (&[0x1036], 10, 0),
        (&[0x102D, 0x102F], 11, 0),
        (&[0x102F, 0x1036], 12, 0),
    ];
    let letters: Vec<u16> = (0x1000..=0x1021).collect();
    let alone: Vec<u16> = (0x1040..=0x104F).filter(|&value| value != 0x104E).collect();
    let all = Alphabet {
        heads: letters.leak(),
        finals: &[0x1000, 0x1004, 0x1009, 0x101E, 0x1020],
        medials: &[0x103B, 0x103C, 0x103D, 0x103E],
        vowels,
        tones: &[0x1037, 0x1038],
        markless: &[0x1023, 0x1024, 0x1025, 0x1026, 0x1027, 0x1029, 0x102A, 0x104E],
        alone: alone.leak(),
    };
    let parts = parts(&all);
    assert!(parts.iter().any(|part| part.record == [0x20, 11, 9, 1, 33, 5, 1, 2]));
    for part in parts {
        let before: &[u16] = match part.begun_by {
            Next::Anything => &[],
            Next::Letter => &[0x1021, 0x1001, 0x1039],
            Next::GreatSa => &[0x1021],
        };
        let after: &[u16] = match part.next {
            Next::Anything => &[],
            Next::Letter => &[0x1010],
            Next::GreatSa => &[0x103F],
        };
        let word = [before, &part.values, after].concat();
        let reading = read(&word).unwrap();
        let number = usize::from(!before.is_empty());
        assert_eq!(reading.syllables()[number].record, part.record, "{word:04X?}");
        assert_eq!(reading.syllables()[number].start, before.len());
        assert_eq!(reading.syllables().len(), number + 1 + usize::from(!after.is_empty()));
        let records: Vec<u8> = reading.syllables().iter().flat_map(|one| one.record).collect();
        let mut output = [0; WORD_LIMIT];
        assert_eq!(write(&records, &mut output), Ok(word.len()));
        assert_eq!(output[..word.len()], word);
    }
}

/// Second finals: none, four that there are, and two that there are not.
const SECONDS: [u8; 7] = [0, 1, 5, 31, 33, 34, 0xFF];

/// How many of all choices of link, finals, tone and the next record, over bytes beyond
/// every bound, are records that the writer takes for this head. What it takes is read to
/// the same records.
fn taken_by_the_writer(head: u8) -> usize {
    let mut taken = 0;
    for bits in 0..SECONDS.len() * 10 * 36 * 5 * 4 {
        let (second, rest) = (SECONDS[bits % SECONDS.len()], bits / SECONDS.len());
        let (link, rest) = (rest % 5, rest / 5);
        let (final_weight, rest) = (rest % 36, rest / 36);
        let (tone, rest) = (rest % 4, rest / 4);
        let next: &[u8] = match rest {
            0 => &[],
            1 => &[0x1E, 0, 0, 0, 0, 0, 0, 0],
            2 => &[0x00, 0, 0, 0, 0, 0, 0, 0],
            3 => &[0x20, 1, 0, 0, 0, 0, 0, 0],
            4 => &[0x21, 0, 0, 0, 0, 0, 0, 0],
            5 => &[0x25, 0, 0, 0, 0, 0, 0, 0],
            6 => &[0x3F, 0, 0, 0, 0, 0, 0, 0],
            7 => &[0x1E, 0, 1, 1, 0, 0, 0, 2],
            8 => &[0x4E, 0, 0, 0, 1, 6, 1, 1],
            _ => &[0x4B, 0, 0, 0, 0, 0, 0, 0],
        };
        let ending = [final_weight as u8, second, link as u8, tone as u8];
        let records = [&[head, 0, 0, 0], &ending[..], next].concat();
        let mut output = [0; WORD_LIMIT];
        let Ok(length) = write(&records, &mut output) else { continue };
        let reading = read(&output[..length]).unwrap();
        let read: Vec<u8> = reading.syllables().iter().flat_map(|one| one.record).collect();
        assert_eq!(read, records);
        taken += 1;
    }
    taken
}

/// The writer takes a record exactly when some word is read to it.
#[test]
fn the_writer_takes_exactly_what_reads_back() {
    // Nine of the ten ends are rows; none or 33 plain finals go with 3 tones each, and the
    // plain ones with 4 second finals too; 33 stacked ones go with the four letters to 1020,
    // great sa with the two heads 1E.
    for head in [0x00, 0x21, 0x25, 0x2A, 0x4E] {
        let taken = 9 * (1 + 33 * (1 + 4)) * 3 + 33 * 4 + 2;
        assert_eq!(taken_by_the_writer(head), taken, "{head:02X}");
    }
    for head in [0x40, 0x4A, 0x4C, 0x4D, 0x4F] {
        assert_eq!(taken_by_the_writer(head), 9, "{head:02X}");
    }
    for head in [0x22, 0x28, 0x3F, 0x50] {
        assert_eq!(taken_by_the_writer(head), 0, "{head:02X}");
    }
}

/// Medial, vowel and tall AA, over bytes beyond every bound: a C takes them in every way
/// that a vowel is written, every other head in none.
#[test]
fn the_writer_takes_marks_on_a_letter_alone() {
    let taken_marks = |head: u8, ending: [u8; 4]| {
        let all = (0..13).flat_map(|medial| (0..14).map(move |vowel| (medial, vowel)));
        let all = all.flat_map(|(medial, vowel)| (0..3).map(move |tall| [medial, vowel, tall]));
        let records = all.map(|marks| [&[head][..], &marks, &ending].concat());
        records.filter(|record| write(record, &mut [0; WORD_LIMIT]).is_ok()).count()
    };
    for ending in [[0; 4], [1, 0, 1, 2], [1, 33, 1, 0]] {
        assert_eq!(taken_marks(0x21, ending), 12 * (13 + 3));
        for head in [0x23, 0x25, 0x2A, 0x4E] {
            assert_eq!(taken_marks(head, ending), 1, "{head:02X}");
        }
        for head in [0x40, 0x4B, 0x4C] {
            assert_eq!(taken_marks(head, ending), usize::from(ending == [0; 4]), "{head:02X}");
        }
    }
}
