//! Two finals come on every head that carries them, with all that may stand beside them, and with
//! what may not.

mod kinds;
mod recorded;

use differential::cases::Cases;
use differential::{Answer, Call, Case, Library, Memory, Outcome, Reference, MARGIN};
use jogcairn::{BOOK_RECORD_HEAD, KEY_SIZE, RECORD_SIZE, WEIGHTS, WORD_LIMIT};
use kinds::{demand, place_of};
use oracle::collation::Weights;
use oracle::syllable::Record;
use recorded::{record, word};
use std::collections::BTreeSet;

/// Whether the call takes the word as it is handed in, and accepts it.
fn reads(case: &Case, outcome: &Outcome) -> bool {
    matches!(case.call, Call::Read | Call::Syllables | Call::Spell)
        && matches!(outcome.answer, Answer::Accepted(_))
}

/// The records of a row; none where it is none.
fn records_of(row: &[u16]) -> Vec<Record> {
    let reading = oracle::read(row);
    reading.map_or_else(
        |_| Vec::new(),
        |reading| reading.syllables().iter().map(|syllable| syllable.record).collect(),
    )
}

/// Whether a record has two finals.
fn is_double(record: &Record) -> bool {
    record[5] > 0
}

/// Whether a word that was read has a syllable with two finals that fits.
fn read_with(case: &Case, outcome: &Outcome, fits: fn(&Record) -> bool) -> bool {
    reads(case, outcome) && records_of(&case.word).iter().any(|it| is_double(it) && fits(it))
}

/// Whether a word that was read has such a syllable behind one that fits.
fn read_behind(case: &Case, outcome: &Outcome, fits: fn(&Record) -> bool) -> bool {
    let behind = |pair: &[Record]| fits(&pair[0]) && is_double(&pair[1]);
    reads(case, outcome) && records_of(&case.word).windows(2).any(behind)
}

#[test]
fn two_finals_are_read_in_every_syllable() {
    demand(&[
        ("on a letter", |case, outcome| {
            read_with(case, outcome, |record| record[0] <= 0x21 && record[7] == 0)
        }),
        ("on 1021", |case, outcome| read_with(case, outcome, |record| record[0] == 0x21)),
        ("with the dot", |case, outcome| read_with(case, outcome, |record| record[7] == 1)),
        ("with the visarga", |case, outcome| read_with(case, outcome, |record| record[7] == 2)),
        ("the same letter twice", |case, outcome| {
            read_with(case, outcome, |record| record[4] == record[5])
        }),
        ("with a medial and a vowel", |case, outcome| {
            read_with(case, outcome, |record| record[1] > 0 && record[2] > 0)
        }),
        ("with a vowel that has a killer of its own", |case, outcome| {
            read_with(case, outcome, |record| record[2] == 9)
        }),
        ("on an independent vowel", |case, outcome| {
            read_with(case, outcome, |record| matches!(record[0], 0x23..=0x2A))
        }),
        ("on an independent vowel, with a tone", |case, outcome| {
            read_with(case, outcome, |record| matches!(record[0], 0x23..=0x2A) && record[7] > 0)
        }),
        ("on the sign", |case, outcome| read_with(case, outcome, |record| record[0] == 0x4E)),
        ("on the sign, with a tone", |case, outcome| {
            read_with(case, outcome, |record| record[0] == 0x4E && record[7] > 0)
        }),
        ("1004 first", |case, outcome| read_with(case, outcome, |record| record[4] == 5)),
        ("1004 second", |case, outcome| read_with(case, outcome, |record| record[5] == 5)),
        ("under a stacked final", |case, outcome| {
            read_behind(case, outcome, |before| before[6] == 2 && before[4] != 5)
        }),
        ("under kinzi", |case, outcome| {
            read_behind(case, outcome, |before| before[6] == 2 && before[4] == 5)
        }),
        ("on the head half of 103F", |case, outcome| {
            read_behind(case, outcome, |before| before[6] == 3)
        }),
        ("behind two finals", |case, outcome| read_behind(case, outcome, is_double)),
    ]);
}

/// Every letter is seen as the first of two finals, and every letter as the second.
#[test]
fn every_letter_is_a_first_and_a_second_final() {
    let mut cases = Cases::new(1);
    let (mut firsts, mut seconds) = (BTreeSet::new(), BTreeSet::new());
    for _ in 0..kinds::INPUTS {
        let case = cases.next_case();
        for record in records_of(&case.word).iter().filter(|record| is_double(record)) {
            firsts.insert(record[4]);
            seconds.insert(record[5]);
        }
    }
    assert!(firsts.into_iter().eq(1..=33));
    assert!(seconds.into_iter().eq(1..=33));
}

/// The values up to the one at which a reading is refused with 3, that one included.
fn refused_with<'c>(case: &'c Case, outcome: &Outcome) -> Option<&'c [u16]> {
    let place = place_of(outcome, 3).filter(|_| case.call == Call::Read)?;
    Some(&case.word[..=place])
}

/// The row before the value at which a reading is refused with 3, and the value.
fn refused_behind(case: &Case, outcome: &Outcome) -> Option<(Record, u16)> {
    let [row @ .., refused] = refused_with(case, outcome)? else { return None };
    Some((*records_of(row).last()?, *refused))
}

#[test]
fn what_comes_near_to_two_finals_is_refused() {
    demand(&[
        ("a third final", |case, outcome| {
            let refused = refused_with(case, outcome);
            matches!(refused, Some([row @ .., 0x1000..=0x1020, 0x103A])
                if records_of(row).last().is_some_and(is_double))
        }),
        ("a stacked third final", |case, outcome| {
            let refused = refused_with(case, outcome);
            matches!(refused, Some([row @ .., 0x1000..=0x1020, 0x1039])
                if records_of(row).last().is_some_and(is_double))
        }),
        ("a stacked second final", |case, outcome| {
            let refused = refused_with(case, outcome);
            matches!(refused, Some([row @ .., 0x1000..=0x1020, 0x1039])
                if records_of(row).last().is_some_and(|it| it[5..7] == [0, 1] && it[7] == 0))
        }),
        ("kinzi as second final", |case, outcome| {
            refused_behind(case, outcome).is_some_and(|(record, refused)| {
                record[5] == 5 && record[7] == 0 && refused == 0x1039
            })
        }),
        ("a stacker behind the second killer", |case, outcome| {
            refused_behind(case, outcome).is_some_and(|(record, refused)| {
                is_double(&record) && record[5] != 5 && refused == 0x1039
            })
        }),
        ("103F behind one plain final", |case, outcome| {
            refused_behind(case, outcome)
                .is_some_and(|(record, refused)| record[5..7] == [0, 1] && refused == 0x103F)
        }),
        ("103F behind two", |case, outcome| {
            refused_behind(case, outcome)
                .is_some_and(|(record, refused)| is_double(&record) && refused == 0x103F)
        }),
        ("a killer behind the second one", |case, outcome| {
            refused_behind(case, outcome)
                .is_some_and(|(record, refused)| is_double(&record) && refused == 0x103A)
        }),
        ("a mark behind the second final", |case, outcome| {
            refused_behind(case, outcome).is_some_and(|(record, refused)| {
                is_double(&record) && matches!(refused, 0x102B..=0x1036 | 0x103B..=0x103E)
            })
        }),
        ("a tone between", |case, outcome| {
            let refused = refused_with(case, outcome);
            matches!(refused, Some([row @ .., 0x1000..=0x1020, 0x103A])
                if records_of(row).last().is_some_and(|it| it[5..7] == [0, 1] && it[7] > 0))
        }),
        ("two tones behind", |case, outcome| {
            refused_behind(case, outcome).is_some_and(|(record, refused)| {
                is_double(&record) && record[7] > 0 && matches!(refused, 0x1037 | 0x1038)
            })
        }),
        ("1021 for the second letter", |case, outcome| {
            let refused = refused_with(case, outcome);
            matches!(refused, Some([.., 0x1000..=0x1020, 0x103A, 0x1021, 0x103A]))
        }),
        ("on what carries nothing", |case, outcome| {
            let place = refused_with(case, outcome).map(<[u16]>::len);
            place.is_some_and(|end| {
                matches!(case.word[..end], [.., 0x1040..=0x104D | 0x104F, 0x1000..=0x1020, 0x103A])
                    && matches!(case.word[end..], [0x1000..=0x1020, 0x103A, ..])
            })
        }),
    ]);
}

/// The stored form of a word that is accepted, where it is not the word.
fn stored_otherwise(case: &Case, outcome: &Outcome) -> Option<Vec<u16>> {
    let Answer::Accepted(count) = &outcome.answer else { return None };
    match &outcome.lent[..] {
        [_, Memory::Values(cells)] if case.call == Call::Normalise => {
            let stored = cells[MARGIN..][..count[0] as usize].to_vec();
            (stored != case.word).then_some(stored)
        }
        _ => None,
    }
}

/// Whether values stand one behind the other in a word.
fn contains(word: &[u16], values: &[u16]) -> bool {
    word.windows(values.len()).any(|stretch| stretch == values)
}

#[test]
fn two_finals_are_stored_in_every_way() {
    demand(&[
        ("a tone typed before the second killer", |case, outcome| {
            let stored = stored_otherwise(case, outcome).unwrap_or_default();
            records_of(&stored).iter().any(|record| is_double(record) && record[7] > 0)
                && case.word.windows(2).any(|pair| matches!(pair, [0x1037 | 0x1038, 0x103A]))
        }),
        ("1025 for the second letter", |case, outcome| {
            let stored = stored_otherwise(case, outcome).unwrap_or_default();
            records_of(&stored).iter().any(|record| record[5] == 10)
                && contains(&case.word, &[0x103A, 0x1025, 0x103A])
        }),
        ("a tone typed before the first killer", |case, outcome| {
            let place = place_of(outcome, 3).filter(|_| case.call == Call::Normalise);
            let mut stored = [0; WORD_LIMIT];
            let count = oracle::stored_form(&case.word, &mut stored);
            place.zip(count.ok()).is_some_and(|(place, count)| {
                stored[..count] != case.word
                    && matches!(
                        stored[..=place],
                        [.., 0x1000..=0x1020, 0x103A, 0x1037 | 0x1038, 0x1000..=0x1020, 0x103A]
                    )
            })
        }),
    ]);
}

/// The records of a case, if all are whole and the writer answers so.
fn records<'c>(case: &'c Case, outcome: &Outcome, tag: u8) -> &'c [Record] {
    match case.bytes.as_chunks() {
        (records, []) if case.call == Call::Write && outcome.answer.tag() == Some(tag) => records,
        _ => &[],
    }
}

/// Whether the writer answers so to records of which one is of the kind.
fn written(case: &Case, outcome: &Outcome, tag: u8, fits: fn(&Record) -> bool) -> bool {
    records(case, outcome, tag).iter().any(fits)
}

#[test]
fn records_with_two_finals_are_written() {
    demand(&[
        ("of a letter", |case, outcome| {
            written(case, outcome, 0, |it| {
                matches!(it, [0..=0x21, _, _, _, 1..=255, 1..=255, 1, 0])
            })
        }),
        ("with a tone", |case, outcome| {
            written(case, outcome, 0, |it| matches!(it, [_, _, _, _, 1..=255, 1..=255, 1, 1..=255]))
        }),
        ("with a medial and a vowel", |case, outcome| {
            written(case, outcome, 0, |it| {
                matches!(it, [_, 1..=255, 1..=255, _, 1..=255, 1..=255, 1, _])
            })
        }),
        ("of an independent vowel", |case, outcome| {
            written(case, outcome, 0, |it| {
                matches!(it, [0x23..=0x2A, 0, 0, 0, 1..=255, 1..=255, 1, _])
            })
        }),
        ("of the sign", |case, outcome| {
            written(case, outcome, 0, |it| matches!(it, [0x4E, 0, 0, 0, 1..=255, 1..=255, 1, _]))
        }),
        ("of the longest word", |case, outcome| {
            outcome.answer == Answer::Accepted(vec![WORD_LIMIT as u64])
                && written(case, outcome, 0, is_double)
        }),
        ("with too little room", |case, outcome| written(case, outcome, 5, is_double)),
    ]);
}

/// Whether the writer refuses a record for its finals and its link alone: with one plain final instead
/// it would write it.
fn refused_for_finals(case: &Case, outcome: &Outcome, fits: fn(&Record) -> bool) -> bool {
    let [record] = records(case, outcome, 6) else { return false };
    let [head, medial, vowel, tall, .., tone] = *record;
    fits(record)
        && oracle::write(&[head, medial, vowel, tall, 1, 0, 1, tone], &mut [0; WORD_LIMIT]).is_ok()
}

/// Whether the writer refuses two records for the second final of the first alone.
fn refused_for_second(case: &Case, outcome: &Outcome, link: u8) -> bool {
    let &[first, second] = records(case, outcome, 6) else { return false };
    let [head, medial, vowel, tall, letter, _, _, tone] = first;
    let without = [head, medial, vowel, tall, letter, 0, link, tone];
    is_double(&first)
        && first[6] == link
        && oracle::write(&[without, second].concat(), &mut [0; WORD_LIMIT]).is_ok()
}

#[test]
fn records_with_two_finals_are_refused() {
    demand(&[
        ("no first final, no link", |case, outcome| {
            refused_for_finals(case, outcome, |it| matches!(it[4..7], [0, 1..=33, 0]))
        }),
        ("no first final, link 1", |case, outcome| {
            refused_for_finals(case, outcome, |it| matches!(it[4..7], [0, 1..=33, 1]))
        }),
        ("link 0", |case, outcome| {
            refused_for_finals(case, outcome, |it| matches!(it[4..7], [1..=33, 1..=33, 0]))
        }),
        ("link 2, open", |case, outcome| {
            refused_for_finals(case, outcome, |it| matches!(it[4..7], [1..=33, 1..=33, 2]))
        }),
        ("link 2, before a letter", |case, outcome| refused_for_second(case, outcome, 2)),
        ("link 3, before 103F", |case, outcome| refused_for_second(case, outcome, 3)),
        ("a second final beyond the letters", |case, outcome| {
            refused_for_finals(case, outcome, |it| matches!(it[4..7], [1..=33, 34..=255, 1]))
        }),
        ("on what carries nothing", |case, outcome| {
            written(case, outcome, 6, |it| {
                matches!(it, [0x40..=0x4D | 0x4F, 0, 0, 0, 1..=33, 1..=33, 1, 0])
            })
        }),
        ("seven bytes", |case, outcome| {
            let seven = case.call == Call::Write && case.bytes.len() == 7;
            seven && place_of(outcome, 6).is_some()
        }),
        ("seven bytes a syllable", |case, outcome| {
            let sevens = case.call == Call::Write && case.bytes.len() % 7 == 0;
            sevens && case.bytes.len() > 7 && place_of(outcome, 6).is_some()
        }),
        ("eight records of seven bytes", |case, outcome| {
            let eight = case.call == Call::Write && case.bytes.len() == 7 * RECORD_SIZE;
            eight && place_of(outcome, 6).is_some()
        }),
    ]);
}

/// Whether the record of a syllable with two finals is asked for with so much room, and answered so.
fn asked_for(case: &Case, outcome: &Outcome, room: usize, tag: u8) -> bool {
    case.call == Call::RecordBytes
        && case.numbers[0] == room
        && outcome.answer.tag() == Some(tag)
        && records_of(&case.word).get(case.numbers[1]).is_some_and(is_double)
}

#[test]
fn records_with_two_finals_are_asked_for_with_every_room() {
    demand(&[
        ("exact room", |case, outcome| asked_for(case, outcome, RECORD_SIZE, 0)),
        ("more room", |case, outcome| asked_for(case, outcome, RECORD_SIZE + 1, 0)),
        ("one byte too few", |case, outcome| asked_for(case, outcome, RECORD_SIZE - 1, 5)),
        ("no room", |case, outcome| asked_for(case, outcome, 0, 5)),
        ("no such syllable, and no room", |case, outcome| {
            case.call == Call::RecordBytes
                && case.numbers[0] == 0
                && outcome.answer == Answer::Nothing
        }),
        ("a refused word, and no room", |case, outcome| {
            case.call == Call::RecordBytes && case.numbers[0] == 0 && place_of(outcome, 3).is_some()
        }),
        ("by value", |case, outcome| {
            matches!(&outcome.answer, Answer::Accepted(bytes)
                if case.call == Call::Record && bytes[5] > 0 && case.numbers[0] > 0)
        }),
    ]);
}

/// The weights of a word as it is stored; none where it is refused.
fn weights(word: &[u16]) -> Vec<Weights> {
    oracle::key(word).map_or_else(|_| Vec::new(), |key| key.row().to_vec())
}

/// The first weights in which two rows of a comparison differ.
fn compared(case: &Case, outcome: &Outcome) -> Option<(Weights, Weights)> {
    let (Call::Compare, Answer::Accepted(_)) = (case.call, &outcome.answer) else { return None };
    let pairs = weights(&case.word).into_iter().zip(weights(&case.second));
    pairs.into_iter().find(|(first, second)| first != second)
}

#[test]
fn two_finals_are_weighed_and_compared() {
    demand(&[
        ("a key", |case, outcome| {
            case.call == Call::Key
                && matches!(outcome.answer, Answer::Accepted(_))
                && weights(&case.word).iter().any(|row| row[3] > 0)
        }),
        ("a key with a byte too little room", |case, outcome| {
            case.call == Call::Key
                && place_of(outcome, 5) == Some(KEY_SIZE)
                && case.numbers[0] == KEY_SIZE - 1
        }),
        ("a key with room for a weight less a syllable", |case, outcome| {
            case.call == Call::Key
                && place_of(outcome, 5) == Some(KEY_SIZE)
                && case.numbers[0] == (WEIGHTS - 1) * WORD_LIMIT
        }),
        ("one final against two", |case, outcome| {
            compared(case, outcome).is_some_and(|(first, second)| {
                first[..3] == second[..3] && first[3] == 0 && second[3] > 0
            })
        }),
        ("two finals against one", |case, outcome| {
            compared(case, outcome).is_some_and(|(first, second)| {
                first[..3] == second[..3] && first[3] > 0 && second[3] == 0
            })
        }),
        ("two finals against two that are exchanged", |case, outcome| {
            compared(case, outcome).is_some_and(|(first, second)| {
                first[2] != first[3] && [first[3], first[2]] == second[2..4]
            })
        }),
        ("a second final against a vowel", |case, outcome| {
            compared(case, outcome).is_some_and(|(first, second)| {
                first[..3] == second[..3] && first[3] > second[3] && first[4] < second[4]
            })
        }),
        ("one word typed in two ways", |case, outcome| {
            case.call == Call::Compare
                && outcome.answer == Answer::Accepted(vec![1])
                && case.word != case.second
                && weights(&case.word).iter().any(|row| row[3] > 0)
        }),
        ("two words of equal weights", |case, outcome| {
            let rows = weights(&case.word);
            case.call == Call::Compare
                && matches!(&outcome.answer, Answer::Accepted(order) if order[0] != 1)
                && rows == weights(&case.second)
                && rows.iter().any(|row| row[3] > 0)
        }),
    ]);
}

#[test]
fn two_finals_are_spelled_out_and_cut_into_parts() {
    demand(&[
        ("spelled behind another syllable", |case, outcome| {
            case.call == Call::Spell
                && matches!(outcome.answer, Answer::Accepted(_))
                && records_of(&case.word).iter().skip(1).any(is_double)
        }),
        ("spelled with too little room", |case, outcome| {
            case.call == Call::Spell
                && place_of(outcome, 5).is_some()
                && records_of(&case.word).iter().any(is_double)
        }),
        ("a part that is not the last", |case, outcome| {
            let records = records_of(&case.word);
            case.call == Call::Part
                && matches!(outcome.answer, Answer::Accepted(_))
                && case.numbers[0] + 1 < records.len()
                && is_double(&records[case.numbers[0]])
        }),
    ]);
}

#[test]
fn two_finals_come_at_the_limits_of_a_word() {
    demand(&[
        ("they end the longest word", |case, outcome| {
            case.word.len() == WORD_LIMIT
                && reads(case, outcome)
                && records_of(&case.word).last().is_some_and(|it| is_double(it) && it[7] == 0)
        }),
        ("they pass it by one value", |case, outcome| {
            case.word.len() == WORD_LIMIT + 1
                && place_of(outcome, 1).is_some()
                && records_of(&case.word[1..]).last().is_some_and(is_double)
        }),
        ("the killer of a third is the last value of the longest word", |case, outcome| {
            case.word.len() == WORD_LIMIT
                && place_of(outcome, 3) == Some(WORD_LIMIT - 1)
                && case.word.ends_with(&[0x103A])
                && records_of(&case.word[..WORD_LIMIT - 2]).last().is_some_and(is_double)
        }),
    ]);
}

/// Whether a row has a syllable with two finals.
fn has_two(row: &[u16]) -> bool {
    records_of(row).iter().any(is_double)
}

/// The words of the live records of a book.
fn live_words(book: &[u8]) -> Vec<Vec<u16>> {
    let (mut words, mut rest) = (Vec::new(), book);
    while let Some(count) = record(rest) {
        words.extend((rest[1] == b'W').then(|| word(rest)));
        rest = &rest[BOOK_RECORD_HEAD + count..];
    }
    words
}

/// How many records a search found, and the weights of its query.
fn searched(case: &Case, outcome: &Outcome) -> Option<(u64, Vec<Weights>)> {
    match &outcome.answer {
        Answer::Accepted(count) if case.call == Call::BookFindPrefix => {
            Some((count[0], weights(&case.word)))
        }
        _ => None,
    }
}

#[test]
fn books_have_words_with_two_finals() {
    demand(&[
        ("added", |case, outcome| {
            case.call == Call::BookAdd && outcome.answer.tag() == Some(0) && has_two(&case.word)
        }),
        ("added, though typed otherwise", |case, outcome| {
            case.call == Call::BookAdd
                && outcome.answer.tag() == Some(0)
                && records_of(&case.word).is_empty()
                && weights(&case.word).iter().any(|row| row[3] > 0)
        }),
        ("removed", |case, outcome| {
            case.call == Call::BookRemove && outcome.answer.tag() == Some(0) && has_two(&case.word)
        }),
        ("found", |case, outcome| {
            case.call == Call::BookFind && outcome.answer.tag() == Some(0) && has_two(&case.word)
        }),
        ("ranked", |case, outcome| {
            matches!(&outcome.answer, Answer::Accepted(found)
                if case.call == Call::BookRank && has_two(&word(&case.bytes[found[0] as usize..])))
        }),
        ("tidied", |case, outcome| {
            let words = live_words(&case.bytes);
            case.call == Call::BookTidy
                && outcome.answer.tag() == Some(0)
                && words.iter().any(|word| has_two(word))
        }),
        ("no book for a third final", |case, outcome| {
            let wrong = place_of(outcome, 11).and_then(|place| case.bytes.get(place..));
            let wrong = wrong.filter(|wrong| record(wrong).is_some()).map(word);
            wrong.is_some_and(|wrong| {
                let end = oracle::read(&wrong).err().map_or(0, |refusal| refusal.place + 1);
                matches!(wrong.get(..end), Some([row @ .., 0x1000..=0x1020, 0x103A])
                    if records_of(row).last().is_some_and(is_double))
            })
        }),
        ("found by their first syllable", |case, outcome| {
            searched(case, outcome).is_some_and(|(count, query)| {
                count > 1 && matches!(query[..], [[_, _, _, 1..=255, _, _]])
            })
        }),
        ("not found by one final", |case, outcome| {
            searched(case, outcome).is_some_and(|(_, query)| {
                let [.., last] = query[..] else { return false };
                let behind = query.len() - 1;
                let goes_on = |word: &Vec<u16>| {
                    let rows = weights(word);
                    let other = rows.get(behind).filter(|_| rows[..behind] == query[..behind]);
                    other.is_some_and(|other| other[..3] == last[..3] && other[3] > 0)
                };
                last[2] > 0 && last[3] == 0 && live_words(&case.bytes).iter().any(goes_on)
            })
        }),
    ]);
}

/// Head, medial, vowel, tall, final, second final, link and tone; the place of 5 is their number.
#[test]
fn the_record_of_a_syllable_has_eight_bytes() {
    let word = vec![0x1018, 0x1010, 0x103A, 0x1005, 0x103A];
    let case = Case { numbers: [RECORD_SIZE, 0], ..Case::of_word(Call::RecordBytes, word) };
    let outcome = Reference.outcome(&case);
    assert_eq!(outcome.answer, Answer::Accepted(vec![RECORD_SIZE as u64]));
    let Memory::Bytes(cells) = &outcome.lent[1] else { panic!("no bytes") };
    assert_eq!(cells[MARGIN..][..RECORD_SIZE], [0x18, 0, 0, 0, 17, 6, 1, 0]);
    let short = Reference.outcome(&Case { numbers: [RECORD_SIZE - 1, 0], ..case });
    assert_eq!(place_of(&short, 5), Some(RECORD_SIZE));
}
