//! Tidyings, removes and adds that leave other books behind.

use super::made::Made;
use super::Seen::{Answers, Left};
use super::{fault, Fault};
use differential::Answer;
use differential::Call::{BookAdd, BookRemove, BookTidy};
use jogcairn::{Book, BOOK_RECORD_HEAD};

pub const FAULTS: &[Fault] = &[
    fault(BookTidy, "bytes left behind the live records", Left(0), |it| {
        leave_behind(it, it.tag() == 0)
    }),
    fault(BookTidy, "records in the order of their words", Left(0), |it| {
        tidy_by(it, |records| {
            let mut records = live(records);
            records.sort_by(|one, two| jogcairn::compare(&word(one), &word(two)).unwrap());
            records
        })
    }),
    fault(BookTidy, "a stock number moved to a neighbour", Left(0), |it| {
        tidy_by(it, |records| {
            let records = live(records);
            let neighbours = [&records[1.min(records.len())..], &records].concat();
            with_stocks(records, &neighbours)
        })
    }),
    fault(BookTidy, "a stock number of the record that stood there", Left(0), |it| {
        tidy_by(it, |records| with_stocks(live(records.clone()), &records))
    }),
    fault(BookTidy, "a removed record kept", Left(0), |it| {
        tidy_by(it, |records| {
            let last = records.last().cloned().filter(|last| !is_live(last));
            live(records).into_iter().chain(last).collect()
        })
    }),
    fault(BookTidy, "gaps left open", Left(0), |it| {
        tidy_by(it, |mut records| {
            records.iter_mut().filter(|record| !is_live(record)).for_each(|record| record.fill(0));
            records
        })
    }),
    fault(BookTidy, "a live length with the removed records", Answers(0, 0), |it| {
        it.accept_if(it.tag() == 0, &[first_free(&it.case.bytes)])
    }),
    fault(BookTidy, "a full book not tidied", Answers(14, 0), |it| {
        let end = first_free(&it.case.bytes);
        refuse_as_full(it, it.tag() == 0 && end > 0 && end == it.case.bytes.len(), end)
    }),
    fault(BookTidy, "records before a wrong one tidied", Left(11), |it| {
        if let Answer::Refused { number: 11, place, .. } = it.answer {
            Book::new(&mut it.book()[..place]).tidy().expect("a book");
        }
    }),
    fault(BookTidy, "a zero behind the book", Left(0), |it| {
        it.clear_if(true, 0, it.case.bytes.len())
    }),
    fault(BookRemove, "a remove that tidies", Left(0), |it| tidy_if(it, it.tag() == 0)),
    fault(BookAdd, "a stock number cut short", Left(0), |it| {
        let start = it.number();
        it.clear_if(start.is_some(), 0, start.unwrap_or(0) + BOOK_RECORD_HEAD - 1)
    }),
    fault(BookAdd, "tidying where the record fits", Answers(0, 0), |it| {
        tidy_needlessly(it, it.tag() == 0)
    }),
    fault(BookAdd, "tidying for an exact fit", Answers(0, 0), |it| {
        let is_full = first_free(it.book()) == it.case.bytes.len();
        tidy_needlessly(it, it.tag() == 0 && is_full)
    }),
    fault(BookAdd, "an add that never tidies", Answers(14, 0), |it| {
        refuse_as_full(it, tidied(it), first_free(&it.case.bytes))
    }),
    fault(BookAdd, "tidying for no exact fit", Answers(14, 0), |it| {
        let is_full = first_free(it.book()) == it.case.bytes.len();
        refuse_as_full(it, tidied(it) && is_full, live_length(&it.case.bytes))
    }),
    fault(BookAdd, "tidying not told", Answers(0, 0), |it| it.change(|numbers| numbers[1] = 0)),
    fault(BookAdd, "tidying not done", Answers(0, 0), |it| it.change(|numbers| numbers[1] = 1)),
    fault(BookAdd, "the start before tidying", Answers(0, 0), |it| {
        it.accept_if(tidied(it), &[first_free(&it.case.bytes), 1])
    }),
    fault(BookAdd, "bytes left behind the added record", Left(0), |it| {
        leave_behind(it, tidied(it))
    }),
    fault(BookAdd, "a full book placed at its first free byte", Answers(14, 14), |it| {
        it.refuse_if(it.tag() == 14, 14, first_free(&it.case.bytes))
    }),
    fault(BookAdd, "a full book that is tidied", Left(14), |it| tidy_if(it, it.tag() == 14)),
    fault(BookAdd, "a full book tested before its live words", Answers(14, 12), |it| {
        it.refuse_if(it.tag() == 12 && !has_room(it), 14, live_length(&it.case.bytes))
    }),
    fault(BookAdd, "a live word in a book tidied first", Answers(12, 12), |it| {
        tidy_if(it, it.tag() == 12);
        it.refuse_if(it.tag() == 12, 12, place_after_tidying(it))
    }),
];

pub const RIGHT: Fault = fault(BookTidy, "live records alone", Left(0), |it| tidy_by(it, live));

/// The bytes of each record of a book, in the order of their starts.
fn records(book: &[u8]) -> Vec<Vec<u8>> {
    let mut records = Vec::new();
    let mut rest = book;
    while let [b'M', b'W' | b'-', count, ..] = *rest {
        let Some((record, behind)) = rest.split_at_checked(BOOK_RECORD_HEAD + usize::from(count))
        else {
            break;
        };
        records.push(record.to_vec());
        rest = behind;
    }
    records
}

fn is_live(record: &[u8]) -> bool {
    record[1] == b'W'
}

fn live(mut records: Vec<Vec<u8>>) -> Vec<Vec<u8>> {
    records.retain(|record| is_live(record));
    records
}

fn word(record: &[u8]) -> Vec<u16> {
    record[BOOK_RECORD_HEAD..].iter().map(|&letter| 0x1000 + u16::from(letter)).collect()
}

/// The records with the stock numbers of others.
fn with_stocks(mut records: Vec<Vec<u8>>, others: &[Vec<u8>]) -> Vec<Vec<u8>> {
    for (record, other) in records.iter_mut().zip(others) {
        record[3..BOOK_RECORD_HEAD].copy_from_slice(&other[3..BOOK_RECORD_HEAD]);
    }
    records
}

/// Where the records end.
pub fn first_free(book: &[u8]) -> usize {
    records(book).concat().len()
}

/// How many bytes the live records have.
pub fn live_length(book: &[u8]) -> usize {
    live(records(book)).concat().len()
}

/// Whether the word, as it is typed, has room behind the live records.
pub fn has_room(it: &Made) -> bool {
    let record = BOOK_RECORD_HEAD + it.case.word.len();
    live_length(&it.case.bytes) + record <= it.case.bytes.len()
}

/// Where a live word stands when the book is tidied.
pub fn place_after_tidying(it: &Made) -> usize {
    let mut copy = it.case.bytes.clone();
    let tidied = Book::new(&mut copy).tidy();
    let found = tidied.and_then(|_| jogcairn::book::find(&copy, &it.case.word));
    found.map_or(0, |found| found.start)
}

/// Tidies what a call left.
pub fn tidy_if(it: &mut Made, does: bool) {
    if does {
        Book::new(it.book()).tidy().expect("a book");
    }
}

/// Tidies by another rule, which is handed all records and says what is left of them.
fn tidy_by(it: &mut Made, rule: fn(Vec<Vec<u8>>) -> Vec<Vec<u8>>) {
    if it.tag() == 0 {
        let records = rule(records(&it.case.bytes)).concat();
        let (front, rest) = it.book().split_at_mut(records.len());
        front.copy_from_slice(&records);
        rest.fill(0);
    }
}

/// Leaves what stood behind the end of the records as it was.
fn leave_behind(it: &mut Made, does: bool) {
    if does {
        let end = first_free(it.book());
        let bytes = &it.case.bytes[end..];
        it.book()[end..].copy_from_slice(bytes);
    }
}

/// Refuses the book as full at the place, and leaves it as it was.
fn refuse_as_full(it: &mut Made, does: bool, place: usize) {
    if does {
        let bytes = &it.case.bytes;
        it.book().copy_from_slice(bytes);
        it.refuse_if(true, 14, place);
    }
}

/// Whether an add tidied.
fn tidied(it: &Made) -> bool {
    matches!(&it.answer, Answer::Accepted(numbers) if numbers[1] == 1)
}

/// Tidies what an add left that had room behind the last record, where there is something to tidy.
fn tidy_needlessly(it: &mut Made, does: bool) {
    let (live, used) = (live_length(&it.case.bytes), first_free(&it.case.bytes));
    it.accept_if(does && live < used, &[live, 1]);
    tidy_if(it, does && live < used);
}
