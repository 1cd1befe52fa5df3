//! Heads that are no consonants come with all that they carry, and with what they do not.

mod kinds;
mod recorded;

use differential::{Answer, Call, Case, Memory, Outcome, MARGIN};
use kinds::{demand, place_of};
use oracle::syllable::Record;
use recorded::{record, word};

const INDEPENDENT: [u16; 7] = [0x1023, 0x1024, 0x1025, 0x1026, 0x1027, 0x1029, 0x102A];

/// Signs, digits and stops that carry nothing.
fn carries_nothing(value: u16) -> bool {
    matches!(value, 0x1040..=0x104D | 0x104F)
}

/// Whether the call takes the word as it is handed in, and accepts it.
fn reads(case: &Case, outcome: &Outcome) -> bool {
    matches!(case.call, Call::Read | Call::Syllables | Call::Spell)
        && matches!(outcome.answer, Answer::Accepted(_))
}

/// Whether a word that was read has such a syllable, and so begun by one of the heads.
fn read_with(case: &Case, outcome: &Outcome, heads: &[u16], fits: fn(Record) -> bool) -> bool {
    reads(case, outcome) && has(&case.word, heads, fits)
}

/// Whether a row has a syllable of one of the heads that fits.
fn has(row: &[u16], heads: &[u16], fits: fn(Record) -> bool) -> bool {
    let reading = oracle::read(row);
    reading.is_ok_and(|reading| {
        reading.syllables().iter().any(|syllable| {
            heads.contains(&(0x1000 + u16::from(syllable.record[0]))) && fits(syllable.record)
        })
    })
}

/// The values up to the one at which a reading is refused with 3, that one included.
fn refused_with<'c>(case: &'c Case, outcome: &Outcome) -> Option<&'c [u16]> {
    let place = place_of(outcome, 3).filter(|_| case.call == Call::Read)?;
    Some(&case.word[..=place])
}

#[test]
fn independent_vowels_carry_finals_and_tones() {
    demand(&[
        ("a tone", |case, outcome| {
            read_with(case, outcome, &INDEPENDENT, |record| record[5..] == [0, 0, 2])
        }),
        ("a plain final", |case, outcome| {
            read_with(case, outcome, &INDEPENDENT, |record| record[5..] == [0, 1, 0])
        }),
        ("a plain final and a tone", |case, outcome| {
            read_with(case, outcome, &INDEPENDENT, |record| record[5..] == [0, 1, 1])
        }),
        ("a stacked final", |case, outcome| {
            read_with(case, outcome, &INDEPENDENT, |record| record[6] == 2 && record[4] != 5)
        }),
        ("kinzi", |case, outcome| {
            read_with(case, outcome, &INDEPENDENT, |record| record[4..7] == [5, 0, 2])
        }),
        ("great sa", |case, outcome| {
            read_with(case, outcome, &INDEPENDENT, |record| record[6] == 3)
        }),
        ("an open final", |case, outcome| {
            place_of(outcome, 4).is_some()
                && matches!(case.word[..], [.., 0x1023..=0x102A, 0x1000..=0x1020, 0x1039])
        }),
    ]);
}

#[test]
fn the_one_sign_carries_finals_and_tones() {
    demand(&[
        ("a tone", |case, outcome| {
            read_with(case, outcome, &[0x104E], |record| record[5..] == [0, 0, 2])
        }),
        ("a plain final", |case, outcome| {
            read_with(case, outcome, &[0x104E], |record| record[5..] == [0, 1, 0])
        }),
        ("a plain final and a tone", |case, outcome| {
            read_with(case, outcome, &[0x104E], |record| record[5..] == [0, 1, 2])
        }),
        ("a stacked final", |case, outcome| {
            read_with(case, outcome, &[0x104E], |record| record[6] == 2 && record[4] != 5)
        }),
        ("kinzi", |case, outcome| {
            read_with(case, outcome, &[0x104E], |record| record[4..7] == [5, 0, 2])
        }),
        ("great sa", |case, outcome| read_with(case, outcome, &[0x104E], |record| record[6] == 3)),
        ("an open final", |case, outcome| {
            place_of(outcome, 4).is_some()
                && matches!(case.word[..], [.., 0x104E, 0x1000..=0x1020, 0x1039])
        }),
    ]);
}

#[test]
fn heads_come_with_what_they_do_not_carry() {
    demand(&[
        ("a medial on an independent vowel", |case, outcome| {
            let refused = refused_with(case, outcome);
            matches!(refused, Some([.., 0x1023..=0x102A, 0x103B..=0x103E]))
        }),
        ("a vowel mark on an independent vowel", |case, outcome| {
            let refused = refused_with(case, outcome);
            matches!(refused, Some([.., 0x1023..=0x102A, 0x102B..=0x1036]))
        }),
        ("a medial on the sign", |case, outcome| {
            matches!(refused_with(case, outcome), Some([.., 0x104E, 0x103B..=0x103E]))
        }),
        ("a vowel mark on the sign", |case, outcome| {
            matches!(refused_with(case, outcome), Some([.., 0x104E, 0x102B..=0x1036]))
        }),
        ("103F behind a tone", |case, outcome| {
            let refused = refused_with(case, outcome);
            matches!(refused, Some([.., 0x1023..=0x102A | 0x104E, 0x1037 | 0x1038, 0x103F]))
        }),
        ("a plain final on what carries nothing", |case, outcome| {
            let refused = refused_with(case, outcome);
            matches!(refused, Some([.., head, 0x1000..=0x1020, 0x103A]) if carries_nothing(*head))
        }),
        ("a stacked final on what carries nothing", |case, outcome| {
            let refused = refused_with(case, outcome);
            matches!(refused, Some([.., head, 0x1000..=0x1020, 0x1039]) if carries_nothing(*head))
        }),
        ("a tone on what carries nothing", |case, outcome| {
            let refused = refused_with(case, outcome);
            matches!(refused, Some([.., head, 0x1037 | 0x1038]) if carries_nothing(*head))
        }),
        ("103F on what carries nothing", |case, outcome| {
            let refused = refused_with(case, outcome);
            matches!(refused, Some([.., head, 0x103F]) if carries_nothing(*head))
        }),
        ("an independent vowel under a stacker", |case, outcome| {
            matches!(refused_with(case, outcome), Some([.., 0x1039, 0x1023..=0x102A]))
        }),
        ("the sign under a stacker", |case, outcome| {
            matches!(refused_with(case, outcome), Some([.., 0x1039, 0x104E]))
        }),
    ]);
}

/// The stored form of a word that is accepted, where it is not the word.
fn stored_otherwise(case: &Case, outcome: &Outcome) -> Option<Vec<u16>> {
    let Answer::Accepted(count) = &outcome.answer else { return None };
    match &outcome.lent[..] {
        [_, Memory::Values(cells)] if case.call == Call::Normalise => {
            let stored = cells[MARGIN..][..count[0] as usize].to_vec();
            (stored != case.word).then_some(stored)
        }
        _ => None,
    }
}

#[test]
fn the_letter_u_is_stored_otherwise_beside_heads_that_carry_finals() {
    demand(&[
        ("1025 as the plain final of 1025", |case, outcome| {
            let stored = stored_otherwise(case, outcome);
            stored.is_some_and(|stored| stored.windows(3).any(|it| it == [0x1025, 0x1009, 0x103A]))
                && case.word.windows(3).any(|it| it == [0x1025, 0x1025, 0x103A])
        }),
        ("1025 as a stacked final", |case, outcome| {
            let stored = stored_otherwise(case, outcome);
            stored.is_some_and(|stored| stored.windows(3).any(|it| it == [0x1023, 0x1009, 0x1039]))
                && case.word.windows(3).any(|it| it == [0x1023, 0x1025, 0x1039])
        }),
        ("1025 102E with a tone between", |case, outcome| {
            let stored = stored_otherwise(case, outcome);
            stored.is_some_and(|stored| stored.windows(2).any(|it| it == [0x1026, 0x1038]))
                && case.word.windows(3).any(|it| it == [0x1025, 0x1038, 0x102E])
        }),
        ("1025 102E with a final behind", |case, outcome| {
            let stored = stored_otherwise(case, outcome);
            stored.is_some_and(|stored| has(&stored, &[0x1026], |record| record[6] == 1))
                && case.word.windows(2).any(|it| it == [0x1025, 0x102E])
        }),
        ("1025 before its own killer", |case, outcome| {
            place_of(outcome, 3) == Some(1) && case.word.starts_with(&[0x1025, 0x103A])
        }),
    ]);
}

/// The records of a case, if all are whole and the writer answers so.
fn records<'c>(case: &'c Case, outcome: &Outcome, tag: u8) -> &'c [Record] {
    match case.bytes.as_chunks() {
        (records, []) if case.call == Call::Write && outcome.answer.tag() == Some(tag) => records,
        _ => &[],
    }
}

#[test]
fn records_of_such_heads_are_written_and_refused() {
    demand(&[
        ("a final of an independent vowel", |case, outcome| {
            let written = records(case, outcome, 0);
            written
                .iter()
                .any(|record| matches!(record, [0x23..=0x2A, 0, 0, 0, 1..=33, 0, 1..=3, 0]))
        }),
        ("a final and a tone of the sign", |case, outcome| {
            let written = records(case, outcome, 0);
            written.iter().any(|record| matches!(record, [0x4E, 0, 0, 0, 1..=33, 0, 1, 1..=2]))
        }),
        ("a medial of an independent vowel", |case, outcome| {
            let refused = records(case, outcome, 6);
            refused.iter().any(|record| matches!(record, [0x23..=0x2A, 1..12, 0, 0, ..]))
        }),
        ("a vowel of an independent vowel", |case, outcome| {
            let refused = records(case, outcome, 6);
            refused.iter().any(|record| matches!(record, [0x23..=0x2A, 0, 1..13, 0, ..]))
        }),
        ("a final of what carries nothing", |case, outcome| {
            let refused = records(case, outcome, 6);
            refused.iter().any(|record| {
                let [head, 0, 0, 0, 1..=33, 0, 1, _] = *record else { return false };
                carries_nothing(0x1000 + u16::from(head))
            })
        }),
    ]);
}

#[test]
fn books_have_words_of_such_heads() {
    demand(&[
        ("the first of a book, with a final", |case, outcome| {
            matches!(outcome.answer, Answer::Accepted(_))
                && case.call == Call::BookFind
                && record(&case.bytes).is_some()
                && has(&word(&case.bytes), &INDEPENDENT, |record| record[6] > 0)
        }),
        ("added with a final", |case, outcome| {
            matches!(outcome.answer, Answer::Accepted(_))
                && case.call == Call::BookAdd
                && has(&case.word, &INDEPENDENT, |record| record[6] > 0)
        }),
        ("added, the sign with a tone", |case, outcome| {
            matches!(outcome.answer, Answer::Accepted(_))
                && case.call == Call::BookAdd
                && has(&case.word, &[0x104E], |record| record[7] > 0)
        }),
        ("a record that is wrong by what its head carries", |case, outcome| {
            let wrong = place_of(outcome, 11).and_then(|place| case.bytes.get(place..));
            let wrong = wrong.filter(|wrong| record(wrong).is_some());
            wrong.is_some_and(|wrong| {
                word(wrong).windows(2).any(|pair| {
                    matches!(
                        pair,
                        [0x1023..=0x102A | 0x104C..=0x104F, 0x102B..=0x1036 | 0x103B..=0x103E]
                    )
                })
            })
        }),
    ]);
}
