//! Records and keys that are handed back otherwise, records that are written otherwise, and words that
//! are weighed otherwise.

use super::made::{is_independent, Made};
use super::Seen::{Answers, Left};
use super::{fault, Fault};
use differential::Call::{self, Compare, RecordBytes, Write};
use differential::{Cell, MARGIN};
use jogcairn::{KEY_SIZE, RECORD_SIZE, WEIGHTS, WORD_LIMIT};
use oracle::collation::Weights;
use oracle::syllable::Record;

pub const FAULTS: &[Fault] = &[
    fault(Call::Record, "a tone for another", Answers(0, 0), |it| {
        on_record(it, |it| it[7] -= u8::from(it[0] == 0x21 && it[7] == 2))
    }),
    fault(Call::Record, "the final of an independent vowel lost", Answers(0, 0), |it| {
        on_record(it, |it| {
            if has_independent(it) {
                it[4..7].fill(0);
            }
        })
    }),
    fault(Call::Record, "the vowel of an independent vowel put in", Answers(0, 0), |it| {
        on_record(it, |it| it[2] |= if has_independent(it) && it[6] > 0 { 2 } else { 0 })
    }),
    // Two finals, in records by value and as bytes.
    fault(Call::Record, "a second final lost", Answers(0, 0), |it| on_pair(it, |it| it[5] = 0)),
    fault(RecordBytes, "a second final lost", Left(0), |it| on_pair(it, |it| it[5] = 0)),
    fault(Call::Record, "a second final for the first", Answers(0, 0), |it| on_pair(it, moved)),
    fault(RecordBytes, "a second final for the first", Left(0), |it| on_pair(it, moved)),
    fault(Call::Record, "finals exchanged", Answers(0, 0), |it| on_pair(it, |it| it.swap(4, 5))),
    fault(RecordBytes, "finals exchanged", Left(0), |it| on_pair(it, |it| it.swap(4, 5))),
    fault(Call::Record, "a link of two", Answers(0, 0), |it| on_pair(it, |it| it[6] = 2)),
    fault(RecordBytes, "a link of two", Left(0), |it| on_pair(it, |it| it[6] = 2)),
    fault(Call::Record, "link and final", Answers(0, 0), |it| on_pair(it, |it| it.swap(5, 6))),
    fault(RecordBytes, "link and final exchanged", Left(0), |it| on_pair(it, |it| it.swap(5, 6))),
    // The last of the bytes stays as it was, and the others move up by one.
    fault(RecordBytes, "a record of seven bytes", Answers(0, 0), |it| {
        if it.tag() == 0 {
            it.accept_if(true, &[RECORD_SIZE - 1]);
            it.bytes(1).copy_within(6..RECORD_SIZE, 5);
            it.bytes(1)[RECORD_SIZE - 1] = u8::blank(MARGIN + RECORD_SIZE - 1);
        }
    }),
    fault(RecordBytes, "room for seven bytes asked for", Answers(5, 5), |it| {
        it.change_place(5, |_| RECORD_SIZE - 1)
    }),
    fault(RecordBytes, "room tested before there is a record", Answers(5, 128), |it| {
        it.refuse_if(it.tag() == 128 && it.room() < RECORD_SIZE, 5, RECORD_SIZE)
    }),
    fault(RecordBytes, "a record written though short", Left(5), |it| it.write_though_short(1)),
    fault(RecordBytes, "zeros where there is no syllable", Left(128), |it| {
        let does = it.tag() == 128 && it.room() >= RECORD_SIZE;
        (0..RECORD_SIZE).for_each(|place| it.clear_if(does, 1, place))
    }),
    fault(Write, "an independent vowel without its vowel", Answers(5, 6), |it| {
        written_for(it, |it| it[2] = if has_independent(it) { 0 } else { it[2] })
    }),
    fault(Write, "another sign without its final", Answers(5, 6), |it| {
        written_for(it, |it| {
            if matches!(it, [0x4C | 0x4D | 0x4F, .., 1, _]) {
                it[4..7].fill(0);
            }
        })
    }),
    fault(Write, "a second final lost", Answers(5, 5), |it| {
        written_for(it, |it| it[5] *= u8::from(it[4] == 0 || it[6] != 1 || it[5] > 33))
    }),
    fault(Write, "finals exchanged", Left(0), |it| {
        written_for(it, |it| swap_finals(it, it[4] > 0 && it[5] > 0))
    }),
    fault(Write, "a second final without a first", Answers(5, 6), |it| {
        written_for(it, |it| it[5] *= u8::from(it[4] > 0 || it[6] > 0))
    }),
    fault(Write, "a second final taken for the first", Answers(5, 6), |it| {
        written_for(it, |it| swap_finals(it, it[4] == 0))
    }),
    fault(Write, "a second final behind a stacked one", Answers(5, 6), |it| {
        written_for(it, |it| it[5] *= u8::from(it[6] != 2))
    }),
    fault(Write, "a second final before great sa", Answers(5, 6), |it| {
        written_for(it, |it| it[5] *= u8::from(it[6] != 3))
    }),
    fault(Write, "two finals without a link", Answers(5, 6), |it| {
        written_for(it, |it| it[6] += u8::from(it[4] > 0 && it[5] > 0 && it[6] == 0))
    }),
    fault(Write, "a second final beyond the letters", Answers(5, 6), |it| {
        written_for(it, |it| it[5] = it[5].min(33))
    }),
    fault(Write, "two finals on what carries none", Answers(5, 6), |it| {
        written_for(it, |it| {
            if matches!(it, [0x40..=0x4D | 0x4F, .., 1..=255, 1, _]) {
                it[4..].fill(0);
            }
        })
    }),
    fault(Write, "records of seven bytes", Answers(5, 6), |it| {
        let (records, rest) = it.case.bytes.as_chunks::<7>();
        if rest.is_empty() {
            let with_second = |record: &[u8; 7]| [&record[..5], &[0], &record[5..]].concat();
            it.answer_for_bytes(records.iter().flat_map(with_second).collect());
        }
    }),
    fault(Call::Key, "a key written though short", Left(5), |it| it.write_though_short(1)),
    fault(Call::Key, "the final of an independent vowel lost", Left(0), |it| {
        weighed(it, |it, weights| weights[2] *= u8::from(!has_independent(it)))
    }),
    fault(Call::Key, "the vowel of an independent vowel lost before a final", Left(0), |it| {
        weighed(it, |it, weights| weights[4] *= u8::from(!has_independent(it) || it[4] == 0))
    }),
    fault(Call::Key, "a second final lost", Left(0), |it| weighed(it, |_, weights| weights[3] = 0)),
    fault(Call::Key, "finals exchanged", Left(0), |it| {
        weighed(it, |it, weights| weights.swap(2, if it[5] > 0 { 3 } else { 2 }))
    }),
    fault(Call::Key, "a second final behind the vowel", Left(0), |it| {
        weighed(it, |it, weights| weights.swap(3, if it[5] > 0 { 4 } else { 3 }))
    }),
    fault(Call::Key, "five weights a syllable", Left(0), |it| {
        if it.tag() == 0 {
            let key = &mut it.bytes(1)[..KEY_SIZE];
            let rows = key.as_chunks::<WEIGHTS>().0;
            let five: Vec<u8> = rows.iter().flat_map(|it| [&it[..3], &it[4..]].concat()).collect();
            key.fill(0);
            key[..five.len()].copy_from_slice(&five);
        }
    }),
    fault(Call::Key, "a key as short as one of five weights", Left(0), |it| {
        let end = if it.tag() == 0 { KEY_SIZE } else { WITHOUT_SECOND };
        for place in WITHOUT_SECOND..end {
            it.bytes(1)[place] = u8::blank(MARGIN + place);
        }
    }),
    fault(Call::Key, "room for five weights is enough", Answers(0, 5), |it| {
        let is_enough = it.tag() == 5 && it.room() >= WITHOUT_SECOND;
        it.accept_if(is_enough, &[rows(&it.case.word).len()])
    }),
    fault(Compare, "a second final weighed after the vowel", Answers(0, 0), |it| {
        compared_by(it, |weights| weights.swap(3, 4))
    }),
    fault(Compare, "a second final weighed before the first", Answers(0, 0), |it| {
        compared_by(it, |weights| weights.swap(2, 3))
    }),
    fault(Compare, "a second final not compared", Answers(0, 0), |it| {
        compared_by(it, |weights| weights[3] = 0)
    }),
];

pub const RIGHT: Fault = fault(Compare, "the weights", Answers(0, 0), |it| compared_by(it, |_| {}));

/// The bytes of a key with a weight less a syllable.
const WITHOUT_SECOND: usize = (WEIGHTS - 1) * WORD_LIMIT;

fn has_independent(record: &Record) -> bool {
    is_independent(0x1000 + u16::from(record[0]))
}

fn swap_finals(record: &mut Record, does: bool) {
    record.swap(4, if does { 5 } else { 4 });
}

/// Puts the second final in the first one's place.
fn moved(record: &mut Record) {
    record[4] = 0;
    record.swap(4, 5);
}

/// Puts a fault into a record that was handed back, by value or as bytes.
fn on_record(it: &mut Made, fault: fn(&mut Record)) {
    if it.tag() == 0 && it.case.call == RecordBytes {
        return fault(it.bytes(1).first_chunk_mut().expect("a record"));
    }
    it.change(|numbers| {
        let mut record = std::array::from_fn(|place| numbers[place] as u8);
        fault(&mut record);
        *numbers = record.map(u64::from).to_vec();
    });
}

/// The same where the record has two finals.
fn on_pair(it: &mut Made, fault: fn(&mut Record)) {
    let [first, second] = it.case.numbers;
    let number = if it.case.call == RecordBytes { second } else { first };
    let record = jogcairn::record(&it.case.word, number).unwrap_or(None);
    if record.is_some_and(|record| record.second_final_letter().is_some()) {
        on_record(it, fault);
    }
}

/// Writes other records than those that are handed in.
fn written_for(it: &mut Made, other: fn(&mut Record)) {
    let mut bytes = it.case.bytes.clone();
    bytes.as_chunks_mut().0.iter_mut().for_each(other);
    it.answer_for_bytes(bytes);
}

/// Puts a fault into the weights of each syllable of a key that was given.
fn weighed(it: &mut Made, fault: fn(&Record, &mut Weights)) {
    let stored = if it.tag() == 0 { it.stored() } else { Vec::new() };
    let records = jogcairn::read(&stored).into_iter().flatten().map(|it| it.record.bytes());
    for (record, weights) in records.zip(it.bytes(1).as_chunks_mut().0) {
        fault(&record, weights);
    }
}

/// The weights of each syllable.
pub fn rows(word: &[u16]) -> Vec<Weights> {
    jogcairn::Key::of(word).expect("a readable word").rows().collect()
}

/// Compares by other weights than those of the key.
fn compared_by(it: &mut Made, weigh: fn(&mut Weights)) {
    let weighed = |word: &[u16]| {
        let mut rows = rows(word);
        rows.iter_mut().for_each(weigh);
        (rows, jogcairn::normalise(word).expect("a readable word"))
    };
    if it.tag() == 0 {
        let ordering = weighed(&it.case.word).cmp(&weighed(&it.case.second));
        it.accept_if(true, &[(ordering as i8 + 1) as usize]);
    }
}
