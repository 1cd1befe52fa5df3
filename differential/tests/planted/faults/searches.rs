//! Searches by first syllables, orders and listings that go by another rule.

use super::made::Made;
use super::records::rows;
use super::Seen::{Answers, Left};
use super::{fault, Fault};
use differential::Call::{self, BookFindPrefix};
use jogcairn::book::{check, entries, order, word_at};
use jogcairn::BOOK_RECORD_HEAD;

pub const FAULTS: &[Fault] = &[
    fault(Call::BookOrder, "starts in their own order", Left(0), |it| given(it).sort_unstable()),
    fault(Call::BookRank, "a start beside that of a record", Answers(0, 0), |it| {
        let is_first = it.case.numbers[0] == 0;
        it.change(|found| found[0] += u64::from(is_first && found[0] > 0))
    }),
    fault(Call::BookWord, "a removed record told as live", Answers(0, 0), |it| {
        it.change(|told| told[2] = 1)
    }),
    fault(BookFindPrefix, "one final that finds two", Answers(5, 0), |it| {
        search_by(it, |record, query| {
            let cut = |word: &[u16]| rows(word).iter().map(without_second).collect::<Vec<_>>();
            record.live && cut(&record.word).starts_with(&cut(query))
        })
    }),
    fault(BookFindPrefix, "whole words alone", Answers(0, 5), |it| {
        search_by(it, |record, query| record.fits(query) && rows(query) == rows(&record.word))
    }),
    fault(BookFindPrefix, "the first syllable alone", Answers(5, 0), |it| {
        search_by(it, |record, query| record.live && rows(&record.word)[0] == rows(query)[0])
    }),
    fault(BookFindPrefix, "a beginning of the values", Answers(0, 5), |it| {
        search_by(it, |record, query| record.live && record.word.starts_with(query))
    }),
    fault(BookFindPrefix, "a syllable that goes on", Answers(5, 0), |it| {
        search_by(it, |record, query| {
            record.fits(query) || record.live && record.word.starts_with(query)
        })
    }),
    fault(BookFindPrefix, "a stacked final not found by a plain one", Answers(0, 5), |it| {
        search_by(it, |record, query| {
            let last = record.word.get(query.len() - 1);
            record.fits(query) && !(query.ends_with(&[0x103A]) && last == Some(&0x1039))
        })
    }),
    fault(BookFindPrefix, "kinzi not found by a plain final", Answers(0, 5), |it| {
        search_by(it, |record, query| {
            let next = record.word.get(query.len());
            record.fits(query) && !(query.ends_with(&[0x1004, 0x103A]) && next == Some(&0x1039))
        })
    }),
    fault(BookFindPrefix, "great sa not found by a plain final", Answers(0, 5), |it| {
        search_by(it, |record, query| {
            let is_great = record.word.get(query.len().saturating_sub(2)) == Some(&0x103F);
            record.fits(query) && !(query.ends_with(&[0x101E, 0x103A]) && is_great)
        })
    }),
    fault(BookFindPrefix, "removed records given too", Answers(5, 0), |it| {
        search_by(it, |record, query| rows(&record.word).starts_with(&rows(query)))
    }),
    fault(BookFindPrefix, "starts in their own order", Left(0), |it| given(it).sort_unstable()),
    fault(BookFindPrefix, "equal weights in exchanged order", Left(0), |it| {
        let records = records(&it.case.bytes);
        let rows_at = |start| records.iter().find(|it| it.start == start).map(|it| rows(&it.word));
        let starts = given(it);
        for place in 1..starts.len() {
            if rows_at(starts[place - 1]) == rows_at(starts[place]) {
                starts.swap(place - 1, place);
            }
        }
    }),
    fault(BookFindPrefix, "a short list told with its own length", Answers(5, 5), |it| {
        it.refuse_if(it.tag() == 5, 5, it.room())
    }),
    fault(BookFindPrefix, "a short list told with the live count", Answers(5, 5), |it| {
        it.refuse_if(it.tag() == 5, 5, check(&it.case.bytes).unwrap_or(0))
    }),
    fault(BookFindPrefix, "a start written though short", Left(5), |it| it.write_though_short(2)),
    fault(BookFindPrefix, "nothing found taken for a refusal", Answers(13, 0), |it| {
        it.refuse_if(it.number() == Some(0), 13, 0)
    }),
    fault(BookFindPrefix, "an empty query that every record fits", Answers(0, 8), |it| {
        if it.tag() == 8 {
            it.give(&order(&it.case.bytes).unwrap_or_default());
        }
    }),
    fault(BookFindPrefix, "a query taken as it is typed", Answers(3, 0), |it| {
        if let (0 | 5, Err(refusal)) = (it.tag(), jogcairn::read(&it.case.word)) {
            it.refuse_if(true, refusal.number(), refusal.place);
        }
    }),
    fault(BookFindPrefix, "a list tested before the book", Answers(5, 11), |it| {
        it.refuse_if(it.tag() == 11 && it.room() == 0, 5, 1)
    }),
    fault(Call::BookPrefixEntries, "all entries for those that fit", Answers(0, 0), |it| {
        let mut all = Vec::new();
        for entry in entries(&it.case.bytes).into_iter().flatten() {
            all.extend([entry.start() as u64, u64::from(entry.stock())]);
            all.extend(entry.values().map(u64::from));
        }
        it.change(|numbers| *numbers = all)
    }),
];

pub const RIGHT: Fault =
    fault(BookFindPrefix, "what fits", Answers(0, 0), |it| search_by(it, Record::fits));

/// A record of a book.
struct Record {
    start: u16,
    word: Vec<u16>,
    live: bool,
}

impl Record {
    /// Whether it is live, and its weights begin with those of the query.
    fn fits(&self, query: &[u16]) -> bool {
        self.live && rows(&self.word).starts_with(&rows(query))
    }
}

/// The weights of a syllable without that of its second final.
fn without_second(row: &[u8; jogcairn::WEIGHTS]) -> Vec<u8> {
    [&row[..3], &row[4..]].concat()
}

/// All records of a book, in word order.
fn records(book: &[u8]) -> Vec<Record> {
    let mut records = Vec::new();
    let mut start = 0;
    while let Ok(Some((word, told))) = word_at(book, start) {
        records.push(Record { start: start as u16, live: told.live, word });
        start += BOOK_RECORD_HEAD + told.count;
    }
    records.sort_by(|first, second| jogcairn::compare(&first.word, &second.word).unwrap());
    records
}

/// Answers a search by another rule, where neither the query nor the buffer is refused: the records
/// that it keeps, in word order.
fn search_by(it: &mut Made, rule: fn(&Record, &[u16]) -> bool) {
    if matches!(it.tag(), 0 | 5) {
        let query = it.stored();
        let kept = records(&it.case.bytes).into_iter().filter(|record| rule(record, &query));
        it.give(&kept.map(|record| record.start).collect::<Vec<u16>>());
    }
}

/// The starts at the front of a list that was given in the last argument.
fn given<'m>(it: &'m mut Made) -> &'m mut [u16] {
    let (count, last) = (it.number().unwrap_or(0), it.lent.len() - 1);
    &mut it.values(last)[..count]
}
