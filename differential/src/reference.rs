//! The other implementation, `oracle`.

use crate::arguments::{outcome_of, Arguments};
use crate::call::Call;
use crate::case::Case;
use crate::library::Library;
use crate::outcome::{Answer, Outcome};
use oracle::limits::{BOOK_RECORDS_LIMIT, BOOK_RECORD_HEAD, WORD_LIMIT};
use oracle::word::hand_out;
use oracle::{book, Refusal, Which};

/// The other implementation.
pub struct Reference;

impl Library for Reference {
    fn outcome(&self, case: &Case) -> Outcome {
        outcome_of(case, |arguments| answer(case.call, arguments))
    }
}

/// What a call answers.
fn answer(call: Call, arguments: &mut Arguments) -> Answer {
    let Arguments { bytes, word, second, values, written, starts, numbers } = arguments;
    let (word, second) = (word.inside(), second.inside());
    let (bytes, values, written) = (bytes.inside_mut(), values.inside_mut(), written.inside_mut());
    let [first, last] = *numbers;
    let stock = first as u32;
    match call {
        Call::Read => one(oracle::read(word).map(|read| read.syllables().len())),
        Call::Record => {
            of_syllable(word, first, |_| oracle::record(word, first).record.map(u64::from).to_vec())
        }
        Call::RecordBytes => one_or_nothing(oracle::put_record(word, last, written)),
        Call::Part => of_syllable(word, first, |start| {
            vec![start as u64, oracle::part(word, first).len() as u64]
        }),
        Call::Syllables => many(syllables(word)),
        Call::Spell => many(spell(word, values, starts.inside_mut())),
        Call::Write => one(oracle::write(bytes, values)),
        Call::Normalise => one(oracle::normalise(word, values)),
        Call::StoredForm => one(oracle::stored_form(word, values)),
        Call::TypedPlace => one_or_nothing(oracle::typed_place(word, first)),
        // A key is written whole, and a short output is refused last.
        Call::Key => {
            one(oracle::key(word)
                .and_then(|key| hand_out(key.bytes(), written).map(|_| key.count())))
        }
        Call::Compare | Call::WordOrder => {
            of_two(oracle::compare(word, second).map(|ordering| (ordering as i8 + 1) as u64))
        }
        Call::Label => one(oracle::label(word)),
        Call::Skeleton => one(oracle::put_skeleton(word, values)),
        Call::LookAlike => of_two(oracle::look_alike(word, second).map(u64::from)),
        Call::Decode => one(oracle::decode(bytes).and_then(|line| hand_out(&line, values))),
        Call::BookCheck => one(book::check(bytes)),
        Call::BookAdd => many(book::add(bytes, word, stock).map(added)),
        Call::BookPreview => preview(bytes, word, stock),
        Call::BookRemove => one(book::remove(bytes, word)),
        Call::BookTidy => one(book::tidy(bytes)),
        Call::BookFind => many(book::find(bytes, word).map(found)),
        Call::BookFindPrefix => one(book::find_prefix(bytes, word, values)),
        Call::BookRank => many(book::rank(bytes, first).map(found)),
        Call::BookOrder => one(book::order(bytes, values)),
        Call::BookWord => {
            many_or_nothing(book::word_at(bytes, last, values).map(|told| told.map(numbers_of)))
        }
        Call::BookEntries => many(entries(bytes)),
        Call::BookPrefixEntries => many(entries_with_prefix(bytes, word)),
    }
}

fn refused(refusal: Refusal, which: u8) -> Answer {
    Answer::Refused { number: refusal.number, place: refusal.place, which }
}

fn one(result: Result<usize, Refusal>) -> Answer {
    many(result.map(|number| vec![number as u64]))
}

fn many(result: Result<Vec<u64>, Refusal>) -> Answer {
    many_or_nothing(result.map(Some))
}

fn one_or_nothing(result: Result<Option<usize>, Refusal>) -> Answer {
    many_or_nothing(result.map(|number| number.map(|number| vec![number as u64])))
}

fn many_or_nothing(result: Result<Option<Vec<u64>>, Refusal>) -> Answer {
    match result {
        Ok(Some(numbers)) => Answer::Accepted(numbers),
        Ok(None) => Answer::Nothing,
        Err(refusal) => refused(refusal, 0),
    }
}

fn of_two(result: Result<u64, (Which, Refusal)>) -> Answer {
    match result {
        Ok(number) => Answer::Accepted(vec![number]),
        Err((Which::First, refusal)) => refused(refusal, 1),
        Err((Which::Second, refusal)) => refused(refusal, 2),
    }
}

/// What is said of the syllable of a number, by its start, if there is one.
fn of_syllable(word: &[u16], number: usize, say: impl FnOnce(usize) -> Vec<u64>) -> Answer {
    let syllable = |read: oracle::Reading| read.syllables().get(number).map(|it| it.start);
    many_or_nothing(oracle::read(word).map(syllable).map(|start| start.map(say)))
}

/// The bytes of each record, the length of each part and its values.
fn syllables(word: &[u16]) -> Result<Vec<u64>, Refusal> {
    let mut numbers = Vec::new();
    for (number, syllable) in oracle::read(word)?.syllables().iter().enumerate() {
        let part = oracle::part(word, number);
        numbers.extend(syllable.record.map(u64::from));
        numbers.push(part.len() as u64);
        numbers.extend(part.iter().map(|&value| u64::from(value)));
    }
    Ok(numbers)
}

fn spell(word: &[u16], values: &mut [u16], starts: &mut [u16]) -> Result<Vec<u64>, Refusal> {
    let mut wide: Vec<usize> = starts.iter().map(|&start| usize::from(start)).collect();
    let lengths = oracle::spell_out(word, values, &mut wide);
    for (start, wide) in starts.iter_mut().zip(wide) {
        *start = wide as u16;
    }
    lengths.map(|found| vec![found.values as u64, found.starts as u64])
}

fn numbers_of(told: book::Told) -> Vec<u64> {
    vec![told.count as u64, u64::from(told.stock), u64::from(told.live)]
}

fn added(added: book::Added) -> Vec<u64> {
    vec![added.start as u64, u64::from(added.tidied)]
}

fn found(entry: book::Entry) -> Vec<u64> {
    vec![entry.start as u64, u64::from(entry.stock)]
}

/// Start, stock number and values of each live record.
fn entries(bytes: &[u8]) -> Result<Vec<u64>, Refusal> {
    let mut numbers = Vec::new();
    for rank in 0..book::check(bytes)? {
        let entry = book::rank(bytes, rank)?;
        numbers.extend(found(entry));
        numbers.extend(values_at(bytes, entry.start));
    }
    Ok(numbers)
}

/// The values of the record that starts there.
fn values_at(bytes: &[u8], start: usize) -> impl Iterator<Item = u64> + '_ {
    let count = usize::from(bytes[start + 2]);
    let letters = bytes[start + BOOK_RECORD_HEAD..].iter().take(count);
    letters.map(|&letter| 0x1000 + u64::from(letter))
}

/// Start, stock number and values of each live record that continues the query.
fn entries_with_prefix(bytes: &[u8], query: &[u16]) -> Result<Vec<u64>, Refusal> {
    let mut starts = [0; BOOK_RECORDS_LIMIT];
    let count = book::find_prefix(bytes, query, &mut starts)?;
    let mut numbers = Vec::new();
    for start in starts[..count].iter().map(|&start| usize::from(start)) {
        let told = book::word_at(bytes, start, &mut [0; WORD_LIMIT])?.expect("a record");
        numbers.extend([start as u64, u64::from(told.stock)]);
        numbers.extend(values_at(bytes, start));
    }
    Ok(numbers)
}

fn preview(bytes: &[u8], word: &[u16], stock: u32) -> Answer {
    let preview = book::preview(bytes, word, stock);
    let add = Box::new(many(preview.answer.map(added)));
    Answer::Previewed { add, start: preview.start, tidies: preview.tidies }
}
