//! Making a case smaller as long as it shows a difference.

use crate::call::Call;
use crate::case::Case;
use oracle::limits::{BOOK_RECORD_HEAD, RECORD_SIZE, WORD_LIMIT};
use std::iter::successors;
use std::ops::Range;

/// The smallest case that is reached from this one by steps after each of which it still differs.
pub fn smallest(mut case: Case, differs: impl Fn(&Case) -> bool) -> Case {
    loop {
        let smaller = smaller_cases(&case).find(|smaller| differs(smaller));
        match smaller {
            Some(smaller) => case = smaller,
            None => return case,
        }
    }
}

/// Cases one step smaller, those of the largest steps first.
fn smaller_cases(case: &Case) -> impl Iterator<Item = Case> + '_ {
    shorter_cases(case)
        .chain(with_smaller_numbers(case))
        .chain(shorter_cases(case).filter_map(|case| with_number_before(case, 0)))
        .chain(shorter_cases(case).filter_map(|case| with_number_before(case, 1)))
        .chain(simpler_cases(case))
}

/// Cases of which some list is shorter.
fn shorter_cases(case: &Case) -> impl Iterator<Item = Case> + '_ {
    shorter_bytes(case)
        .map(|bytes| Case { bytes, ..case.clone() })
        .chain(without_records_before(case))
        .chain(shorter_adds(case))
        .chain(with_shorter_words(case))
        .chain(without_syllables(case))
        .chain(with_word_of_record(case))
        .chain(shorter(&case.word).map(|word| Case { word, ..case.clone() }))
        .chain(shorter(&case.second).map(|second| Case { second, ..case.clone() }))
}

/// The bytes of a case with some less, of a book or a row by whole records first.
fn shorter_bytes(case: &Case) -> impl Iterator<Item = Vec<u8>> + '_ {
    let book = book(case);
    let row = if case.call == Call::Write { &case.bytes[..] } else { &[] };
    fewer_records(book)
        .chain(fewer_syllables(row))
        .chain(shorter(&case.bytes))
        .chain(shorter_records(book))
}

/// The row without the records of some of its syllables.
fn fewer_syllables(row: &[u8]) -> impl Iterator<Item = Vec<u8>> + '_ {
    stretches(row.len() / RECORD_SIZE)
        .map(|taken| without(row, taken.start * RECORD_SIZE..taken.end * RECORD_SIZE))
}

/// Cases of an add or its preview with as many values less, the last or the first ones, as bytes of the
/// book, so that a record that would end at the last byte still does.
fn shorter_adds(case: &Case) -> impl Iterator<Item = Case> + '_ {
    let adds = case.call.is_add_or_preview().then(|| shorter_bytes(case));
    adds.into_iter().flatten().flat_map(move |bytes| {
        let less = case.bytes.len() - bytes.len();
        let without_last = case.word.len().checked_sub(less).map(|length| &case.word[..length]);
        let words = [without_last, case.word.get(less..)].into_iter().flatten();
        words.map(move |word| Case { bytes: bytes.clone(), word: word.to_vec(), ..case.clone() })
    })
}

/// The book of a case, if it has one.
fn book(case: &Case) -> &[u8] {
    if case.call.takes_book() {
        &case.bytes
    } else {
        &[]
    }
}

/// Cases of lists that are no longer, one item or the last record of which is simpler, or in which the
/// word is stored as it is.
fn simpler_cases(case: &Case) -> impl Iterator<Item = Case> + '_ {
    without_last_record(book(case))
        .into_iter()
        .chain(simpler(&case.bytes, 0))
        .map(|bytes| Case { bytes, ..case.clone() })
        .chain(with_bare_syllables(case))
        .chain(with_stored_word(case))
        .chain(with_simpler_words(case))
        .chain(simpler(&case.word, 0x1000).map(|word| Case { word, ..case.clone() }))
        .chain(simpler(&case.second, 0x1000).map(|second| Case { second, ..case.clone() }))
}

/// The case with the number before one of its own: a shorter word has the same syllable there, and
/// a shorter outcome as much room.
fn with_number_before(mut case: Case, which: usize) -> Option<Case> {
    case.numbers[which] = case.numbers[which].checked_sub(1)?;
    Some(case)
}

/// Stretches of a list of so many items: all, halves, quarters and so on down to single items. The
/// next begins in the middle of the one before, so that any two neighbours are a stretch.
fn stretches(length: usize) -> impl Iterator<Item = Range<usize>> {
    let sizes = successors(Some(length), |&size| (size > 1).then(|| size.div_ceil(2)));
    sizes.filter(|&size| size > 0).flat_map(move |size| {
        let starts = (0..length).step_by(size.div_ceil(2));
        starts.map(move |start| start..length.min(start + size))
    })
}

fn without<T: Copy>(list: &[T], stretch: Range<usize>) -> Vec<T> {
    [&list[..stretch.start], &list[stretch.end..]].concat()
}

/// The list without a stretch of it.
fn shorter<T: Copy>(list: &[T]) -> impl Iterator<Item = Vec<T>> + '_ {
    stretches(list.len()).map(|stretch| without(list, stretch))
}

/// The list with one item made the simplest.
fn simpler<T: Copy + PartialEq>(list: &[T], simplest: T) -> impl Iterator<Item = Vec<T>> + '_ {
    let places = (0..list.len()).filter(move |&place| list[place] != simplest);
    places.map(move |place| {
        let mut list = list.to_vec();
        list[place] = simplest;
        list
    })
}

/// The stretches of a book that look like records.
fn records(book: &[u8]) -> Vec<Range<usize>> {
    let mut records = Vec::new();
    let mut start = 0;
    while let Some(&[b'M', _, count, ..]) = book.get(start..) {
        let end = start + BOOK_RECORD_HEAD + usize::from(count);
        if end > book.len() {
            break;
        }
        records.push(start..end);
        start = end;
    }
    records
}

/// The part of such a stretch that is the word.
fn letters_of(record: &Range<usize>) -> Range<usize> {
    record.start + BOOK_RECORD_HEAD..record.end
}

/// The book without some of its records.
fn fewer_records(book: &[u8]) -> impl Iterator<Item = Vec<u8>> + '_ {
    let records = records(book);
    stretches(records.len())
        .map(move |taken| without(book, records[taken.start].start..records[taken.end - 1].end))
}

/// The book with zeros for its last record.
fn without_last_record(book: &[u8]) -> Option<Vec<u8>> {
    let last = records(book).pop()?;
    let mut book = book.to_vec();
    book[last].fill(0);
    Some(book)
}

/// Cases without one of the records before the start that is asked for, which moves with its record.
fn without_records_before(case: &Case) -> impl Iterator<Item = Case> + '_ {
    let start = if case.call == Call::BookWord { case.numbers[1] } else { 0 };
    let before = records(&case.bytes).into_iter().filter(move |record| record.end <= start);
    before.map(move |record| {
        let numbers = [case.numbers[0], start - record.len()];
        Case { bytes: without(&case.bytes, record), numbers, ..case.clone() }
    })
}

/// So many records of a book are looked at together.
const FEW: usize = 4;

/// The letters of each word of a case that has several: of two words, or of the word and of the first
/// records of a book.
fn letters(case: &Case) -> Vec<Vec<u8>> {
    let records = records(book(case)).into_iter().take(FEW);
    let records = records.map(|record| case.bytes[letters_of(&record)].to_vec());
    let is_alone = book(case).is_empty() && case.second.is_empty();
    let word = if is_alone { &[] } else { &case.word[..] };
    let words = [word, &case.second].map(low_bytes);
    words.into_iter().chain(records).collect()
}

fn low_bytes(word: &[u16]) -> Vec<u8> {
    word.iter().map(|&value| value as u8).collect()
}

/// Where letters stand in words: so many before them, or so many behind them.
#[derive(Clone, Copy)]
enum Place {
    FromFront(usize),
    FromEnd(usize),
}

impl Place {
    /// The stretch of so many letters at this place of a word, if it is that long.
    fn stretch(self, letters: usize, word: usize) -> Option<Range<usize>> {
        let start = match self {
            Place::FromFront(before) => before,
            Place::FromEnd(behind) => word.checked_sub(behind + letters)?,
        };
        (start + letters <= word).then_some(start..start + letters)
    }
}

/// Cases with a stretch less in every word that has the same values there, counted from its front or
/// from its end, so that what fits may still fit.
fn with_shorter_words(case: &Case) -> impl Iterator<Item = Case> + '_ {
    letters(case).into_iter().flat_map(move |letters| {
        let length = letters.len();
        let all =
            (0..length).flat_map(move |start| (start + 1..=length).map(move |end| start..end));
        all.flat_map(move |stretch| {
            let places = [Place::FromFront(stretch.start), Place::FromEnd(length - stretch.end)];
            places.map(|place| replaced(case, place, &letters[stretch.clone()], None))
        })
    })
}

/// Cases without the syllables of a number in both words, which may still look alike, however each of
/// them was written.
fn without_syllables(case: &Case) -> impl Iterator<Item = Case> + '_ {
    let most = if case.call.takes_two_words() { WORD_LIMIT } else { 0 };
    (0..most).map_while(|number| {
        let word = without_syllable(&case.word, number)?;
        let second = without_syllable(&case.second, number)?;
        Some(Case { word, second, ..case.clone() })
    })
}

/// The word without the syllable of a number, if it has one.
fn without_syllable(word: &[u16], number: usize) -> Option<Vec<u16>> {
    let start = oracle::read(word).ok()?.syllables().get(number)?.start;
    Some(without(word, start..start + oracle::part(word, number).len()))
}

/// Cases with the word of a record for their own, where it is shorter: a search by another spelling
/// finds the record by its own too.
fn with_word_of_record(case: &Case) -> impl Iterator<Item = Case> + '_ {
    let words = records(book(case)).into_iter().map(|record| {
        let letters = &case.bytes[letters_of(&record)];
        letters.iter().map(|&letter| 0x1000 + u16::from(letter)).collect::<Vec<u16>>()
    });
    let shorter = words.filter(|word| word.len() < case.word.len());
    shorter.map(|word| Case { word, ..case.clone() })
}

/// Cases with one value made simpler in every word that has the same value there: the simplest, or
/// what mostly weighs the same, AA for tall AA and a killer for a stacker.
fn with_simpler_words(case: &Case) -> impl Iterator<Item = Case> + '_ {
    const SIMPLER: [(u8, u8); 2] = [(0x2B, 0x2C), (0x39, 0x3A)];
    letters(case).into_iter().flat_map(move |letters| {
        let simplest = letters.clone().into_iter().enumerate().filter(|&(_, letter)| letter != 0);
        let simplest = simplest.map(|(place, letter)| (place, letter, 0));
        let simpler = letters.into_iter().enumerate().flat_map(|(place, letter)| {
            let fitting = SIMPLER.into_iter().filter(move |&(from, _)| from == letter);
            fitting.map(move |(from, to)| (place, from, to))
        });
        let all = simplest.chain(simpler);
        all.map(|(place, from, to)| replaced(case, Place::FromFront(place), &[from], Some(to)))
    })
}

/// Cases in which one syllable is its head alone, the first, the second or another, in every word that
/// has so many: so a final goes in whichever form each of them has it. Only for books of few records.
fn with_bare_syllables(case: &Case) -> impl Iterator<Item = Case> + '_ {
    let most = if records(book(case)).len() > FEW { 0 } else { WORD_LIMIT };
    (0..most)
        .map_while(move |number| {
            let word = with_bare_syllable(&case.word, number)?;
            let mut barer = Case { word, ..case.clone() };
            if let Some(second) = with_bare_syllable(&case.second, number) {
                barer.second = second;
            }
            // The last record first, so that those before it stay where they are.
            for record in records(book(case)).into_iter().rev() {
                let letters = letters_of(&record);
                let word = case.bytes[letters.clone()].iter().map(|&byte| 0x1000 + u16::from(byte));
                let Some(word) = with_bare_syllable(&word.collect::<Vec<_>>(), number) else {
                    continue;
                };
                barer.bytes[record.start + 2] = word.len() as u8;
                barer.bytes.splice(letters, word.iter().map(|&value| value as u8));
            }
            Some(barer)
        })
        .filter(move |barer| barer != case)
}

/// The word with a head alone for the syllable of a number, if it has one.
fn with_bare_syllable(word: &[u16], number: usize) -> Option<Vec<u16>> {
    let reading = oracle::read(word).ok()?;
    let mut records: Vec<_> = reading.syllables().iter().map(|one| one.record).collect();
    records.get_mut(number)?[1..].fill(0);
    let mut barer = [0; WORD_LIMIT];
    let count = oracle::write(&records.concat(), &mut barer).ok()?;
    Some(barer[..count].to_vec())
}

/// The case with the word of a book as it is stored, where it is typed otherwise.
fn with_stored_word(case: &Case) -> Option<Case> {
    let mut stored = [0; WORD_LIMIT];
    let count = oracle::stored_form(&case.word, &mut stored).ok()?;
    let word = stored[..count].to_vec();
    (word != case.word && !book(case).is_empty()).then(|| Case { word, ..case.clone() })
}

/// The case with other letters in every word that has these at the place.
fn replaced(case: &Case, place: Place, letters: &[u8], by: Option<u8>) -> Case {
    let mut smaller = case.clone();
    let same = |word: &[u8]| {
        let stretch = place.stretch(letters.len(), word.len())?;
        (word[stretch.clone()] == *letters).then_some(stretch)
    };
    for word in [&mut smaller.word, &mut smaller.second] {
        if let Some(stretch) = same(&low_bytes(word)) {
            word.splice(stretch, by.map(|letter| 0x1000 + u16::from(letter)));
        }
    }
    // The last record first, so that those before it stay where they are.
    for record in records(book(case)).into_iter().rev() {
        let own = letters_of(&record);
        if let Some(stretch) = same(&case.bytes[own.clone()]) {
            smaller.bytes.splice(own.start + stretch.start..own.start + stretch.end, by);
            smaller.bytes[record.start + 2] -= (letters.len() - by.iter().len()) as u8;
        }
    }
    smaller
}

/// The book with fewer values in a record: without its last ones, or without one.
fn shorter_records(book: &[u8]) -> impl Iterator<Item = Vec<u8>> + '_ {
    records(book).into_iter().flat_map(move |record| {
        let places = letters_of(&record);
        let ends = places.clone().map(move |place| place..record.end);
        ends.chain(places.map(|place| place..place + 1)).map(move |stretch| {
            let mut shorter = without(book, stretch.clone());
            shorter[record.start + 2] -= stretch.len() as u8;
            shorter
        })
    })
}

/// The case with a number less by all of it, half of it, a quarter and so on down to 1.
fn with_smaller_numbers(case: &Case) -> impl Iterator<Item = Case> + '_ {
    case.numbers.into_iter().enumerate().flat_map(move |(place, number)| {
        let steps = successors(Some(number), |&step| Some(step / 2)).take_while(|&step| step > 0);
        steps.map(move |step| {
            let mut smaller = case.clone();
            smaller.numbers[place] -= step;
            smaller
        })
    })
}
