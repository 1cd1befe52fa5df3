//! The proved library, through the crate `jogcairn`.

use crate::arguments::{outcome_of, Arguments};
use crate::call::Call;
use crate::case::Case;
use crate::library::Library;
use crate::outcome::{Answer, Outcome};
use jogcairn::{book, Added, Book, ComparisonRefusal, Entries, Found, Refusal, Told, Which, Word};
use std::cmp::Ordering;

/// The proved library.
pub struct Proved;

impl Library for Proved {
    fn outcome(&self, case: &Case) -> Outcome {
        outcome_of(case, |arguments| answer(case.call, arguments))
    }
}

/// What a call answers.
fn answer(call: Call, arguments: &mut Arguments) -> Answer {
    let Arguments { bytes, word, second, values, written, starts, numbers } = arguments;
    let (word, second) = (word.inside(), second.inside());
    let (bytes, values, written) = (bytes.inside_mut(), values.inside_mut(), written.inside_mut());
    let [first, last] = *numbers;
    let stock = first as u32;
    match call {
        Call::Read => one(jogcairn::read(word).map(|syllables| syllables.len())),
        Call::Record => many_or_nothing(jogcairn::record(word, first).map(|record| {
            record.map(|record| record.bytes().into_iter().map(u64::from).collect())
        })),
        Call::RecordBytes => one_or_nothing(jogcairn::record_into(word, last, written)),
        Call::Part => many_or_nothing(
            jogcairn::part(word, first).map(|part| part.map(|it| place_in(word, it))),
        ),
        Call::Syllables => many(syllables(word)),
        Call::Spell => many(
            jogcairn::spell_into(word, values, starts.inside_mut())
                .map(|lengths| vec![lengths.values as u64, lengths.starts as u64]),
        ),
        Call::Write => one(jogcairn::write_into(bytes, values)),
        Call::Normalise => one(jogcairn::normalise_into(word, values)),
        Call::StoredForm => one(jogcairn::stored_form_into(word, values)),
        Call::TypedPlace => one_or_nothing(jogcairn::typed_place(word, first)),
        Call::Key => one(jogcairn::key_into(word, written)),
        Call::Compare => of_two(jogcairn::compare(word, second).map(number_of)),
        Call::WordOrder => of_two(order_of_words(word, second).map(number_of)),
        Call::Label => one(jogcairn::label(word)),
        Call::Skeleton => one(jogcairn::skeleton_into(word, values)),
        Call::LookAlike => of_two(jogcairn::look_alike(word, second).map(u64::from)),
        Call::Decode => one(jogcairn::decode_into(bytes, values)),
        Call::BookCheck => one(book::check(bytes)),
        Call::BookAdd => many(Book::new(bytes).add(word, stock).map(added)),
        Call::BookPreview => preview(bytes, word, stock),
        Call::BookRemove => one(Book::new(bytes).remove(word)),
        Call::BookTidy => one(Book::new(bytes).tidy()),
        Call::BookFind => many(book::find(bytes, word).map(found)),
        Call::BookFindPrefix => one(book::find_prefix_into(bytes, word, values)),
        Call::BookRank => many(book::rank(bytes, first).map(found)),
        Call::BookOrder => one(book::order_into(bytes, values)),
        Call::BookWord => {
            many_or_nothing(book::word_into(bytes, last, values).map(|told| told.map(numbers_of)))
        }
        Call::BookEntries => many(book::entries(bytes).map(listed)),
        Call::BookPrefixEntries => many(book::entries_with_prefix(bytes, word).map(listed)),
    }
}

fn refused(refusal: Refusal, which: u8) -> Answer {
    Answer::Refused { number: refusal.number(), place: refusal.place, which }
}

fn one(result: Result<usize, Refusal>) -> Answer {
    many(result.map(|number| vec![number as u64]))
}

fn many(result: Result<Vec<u64>, Refusal>) -> Answer {
    many_or_nothing(result.map(Some))
}

fn one_or_nothing(result: Result<Option<usize>, Refusal>) -> Answer {
    many_or_nothing(result.map(|number| number.map(|number| vec![number as u64])))
}

fn many_or_nothing(result: Result<Option<Vec<u64>>, Refusal>) -> Answer {
    match result {
        Ok(Some(numbers)) => Answer::Accepted(numbers),
        Ok(None) => Answer::Nothing,
        Err(refusal) => refused(refusal, 0),
    }
}

fn of_two(result: Result<u64, ComparisonRefusal>) -> Answer {
    match result {
        Ok(number) => Answer::Accepted(vec![number]),
        Err(ComparisonRefusal { which: Which::First, refusal }) => refused(refusal, 1),
        Err(ComparisonRefusal { which: Which::Second, refusal }) => refused(refusal, 2),
    }
}

/// Where a part of the word begins, and its length.
fn place_in(word: &[u16], part: &[u16]) -> Vec<u64> {
    let place = (part.as_ptr() as usize - word.as_ptr() as usize) / 2;
    vec![place as u64, part.len() as u64]
}

/// The bytes of each record, the length of each part and its values.
fn syllables(word: &[u16]) -> Result<Vec<u64>, Refusal> {
    let mut numbers = Vec::new();
    for syllable in jogcairn::read(word)? {
        numbers.extend(syllable.record.bytes().map(u64::from));
        numbers.push(syllable.part.len() as u64);
        numbers.extend(syllable.part.iter().map(|&value| u64::from(value)));
    }
    Ok(numbers)
}

fn number_of(ordering: Ordering) -> u64 {
    (ordering as i8 + 1) as u64
}

fn order_of_words(first: &[u16], second: &[u16]) -> Result<Ordering, ComparisonRefusal> {
    let refused_in = |which| move |refusal| ComparisonRefusal { which, refusal };
    let first = Word::new(first).map_err(refused_in(Which::First))?;
    let second = Word::new(second).map_err(refused_in(Which::Second))?;
    Ok(first.cmp(&second))
}

fn numbers_of(told: Told) -> Vec<u64> {
    vec![told.count as u64, u64::from(told.stock), u64::from(told.live)]
}

fn added(added: Added) -> Vec<u64> {
    vec![added.start as u64, u64::from(added.tidied)]
}

fn found(found: Found) -> Vec<u64> {
    vec![found.start as u64, u64::from(found.stock)]
}

/// Start, stock number and values of each entry.
fn listed(entries: Entries<'_>) -> Vec<u64> {
    let mut numbers = Vec::new();
    for entry in entries {
        numbers.extend([entry.start() as u64, u64::from(entry.stock())]);
        numbers.extend(entry.values().map(u64::from));
    }
    numbers
}

fn preview(bytes: &[u8], word: &[u16], stock: u32) -> Answer {
    let preview = book::preview(bytes, word, stock);
    let add = Box::new(many(preview.answer.map(added)));
    Answer::Previewed { add, start: preview.start, tidies: preview.tidies }
}
