//! The searches by first syllables come in all kinds: what is found, what is missed, what is refused.

mod kinds;
mod recorded;

use differential::{Answer, Call, Case, Memory, Outcome, MARGIN};
use jogcairn::{BOOK_LIMIT, BOOK_RECORD_HEAD, WORD_LIMIT};
use kinds::{demand, place_of};
use recorded::{record, word};

#[test]
fn words_are_found_in_every_way() {
    demand(&[
        ("the query itself, and more", |case, outcome| {
            found(case, outcome).is_some_and(|(query, words)| words.len() > 1 && words[0] == query)
        }),
        ("by the first of several syllables", |case, outcome| {
            let syllables = |word: &[u16]| oracle::key(word).map_or(0, |key| key.count());
            found(case, outcome).is_some_and(|(query, words)| {
                syllables(&query) == 1 && words.iter().any(|word| syllables(word) > 2)
            })
        }),
        ("a stacked final by a plain one", |case, outcome| written(case, outcome, &[0x1039])),
        ("kinzi by a plain final", |case, outcome| written(case, outcome, &[0x103A, 0x1039])),
        ("great sa by a plain final", |case, outcome| written(case, outcome, &[0x103F])),
        ("a plain final by a stacked one", |case, outcome| {
            found(case, outcome).is_some_and(|(query, words)| {
                let stacker = query.iter().position(|&value| value == 0x1039);
                words.iter().any(|word| stacker.is_some_and(|at| word.get(at) == Some(&0x103A)))
            })
        }),
        ("words of equal weights", |case, outcome| {
            found(case, outcome).is_some_and(|(_, words)| {
                let keys = |pair: &[Vec<u16>]| oracle::key(&pair[0]) == oracle::key(&pair[1]);
                words.windows(2).any(keys)
            })
        }),
        ("an independent vowel with a final by a mark of 1021", |case, outcome| {
            found(case, outcome).is_some_and(|(query, words)| {
                let first = |word: &[u16]| oracle::record(word, 0).record;
                first(&query)[0] == 0x21
                    && first(&query)[4] > 0
                    && words.iter().any(|word| matches!(first(word)[0], 0x23..=0x2A))
            })
        }),
        ("a mark of 1021 by an independent vowel with a final", |case, outcome| {
            found(case, outcome).is_some_and(|(query, words)| {
                let first = |word: &[u16]| oracle::record(word, 0).record;
                matches!(first(&query), [0x23..=0x2A, _, _, _, 1..=33, ..])
                    && words.iter().any(|word| first(word)[0] == 0x21)
            })
        }),
        ("a query typed otherwise", |case, outcome| {
            found(case, outcome)
                .is_some_and(|(query, words)| query != case.word && !words.is_empty())
        }),
    ]);
}

#[test]
fn words_are_missed_in_every_way() {
    demand(&[
        ("nothing found", |case, outcome| starts(case, outcome).is_some_and(<[u16]>::is_empty)),
        ("a removed word that would be found", |case, outcome| {
            starts(case, outcome).is_some()
                && records(&case.bytes).any(|(live, word)| !live && begins(&word, &case.word))
        }),
        ("a syllable that goes on", |case, outcome| {
            starts(case, outcome).is_some()
                && records(&case.bytes).any(|(live, word)| {
                    live && word.starts_with(&case.word) && !begins(&word, &case.word)
                })
        }),
    ]);
}

#[test]
fn searches_are_refused_in_every_way() {
    demand(&[
        ("no room for one", |case, outcome| refused_search(case, outcome, 5) == Some(1)),
        ("one place too few of several", |case, outcome| {
            let several = refused_search(case, outcome, 5).filter(|&needed| needed > 2);
            several.is_some_and(|needed| needed - 1 == case.numbers[0])
        }),
        ("no book and no room", |case, outcome| {
            refused_search(case, outcome, 11).is_some() && case.numbers[0] == 0
        }),
        ("an overlong buffer", |case, outcome| {
            refused_search(case, outcome, 11) == Some(BOOK_LIMIT) && case.bytes.len() > BOOK_LIMIT
        }),
        ("a bad query and a bad book", |case, outcome| {
            refused_search(case, outcome, 3).is_some() && oracle::book::check(&case.bytes).is_err()
        }),
        ("no query and a bad book", |case, outcome| {
            refused_search(case, outcome, 8).is_some() && oracle::book::check(&case.bytes).is_err()
        }),
        ("a place in the stored form", |case, outcome| {
            let mut stored = [0; WORD_LIMIT];
            refused_search(case, outcome, 3).is_some()
                && oracle::stored_form(&case.word, &mut stored)
                    .is_ok_and(|count| stored[..count] != case.word)
        }),
    ]);
}

/// The place of a search that is refused with the number.
fn refused_search(case: &Case, outcome: &Outcome, number: u8) -> Option<usize> {
    place_of(outcome, number).filter(|_| case.call == Call::BookFindPrefix)
}

/// The starts that a search gave.
fn starts<'o>(case: &Case, outcome: &'o Outcome) -> Option<&'o [u16]> {
    match (&outcome.answer, outcome.lent.last()) {
        (Answer::Accepted(count), Some(Memory::Values(cells)))
            if case.call == Call::BookFindPrefix =>
        {
            Some(&cells[MARGIN..][..count[0] as usize])
        }
        _ => None,
    }
}

/// The stored query of a search, and the words that were found.
fn found(case: &Case, outcome: &Outcome) -> Option<(Vec<u16>, Vec<Vec<u16>>)> {
    let starts = starts(case, outcome)?;
    let words = starts.iter().map(|&start| word(&case.bytes[usize::from(start)..])).collect();
    let mut query = [0; WORD_LIMIT];
    let count = oracle::normalise(&case.word, &mut query).ok()?;
    Some((query[..count].to_vec(), words))
}

/// Whether a search by a last plain final found a word that has this in its place.
fn written(case: &Case, outcome: &Outcome, instead: &[u16]) -> bool {
    let Some((query, words)) = found(case, outcome) else { return false };
    let [syllable @ .., letter, 0x103A] = &query[..] else { return false };
    let plain = match instead {
        [0x103F] => syllable.to_vec(),
        _ => [syllable, &[*letter]].concat(),
    };
    words
        .iter()
        .any(|word| word.strip_prefix(&plain[..]).is_some_and(|rest| rest.starts_with(instead)))
}

/// The records of a book, live or not, with their words.
fn records(book: &[u8]) -> impl Iterator<Item = (bool, Vec<u16>)> + '_ {
    let mut rest = book;
    std::iter::from_fn(move || {
        let count = record(rest)?;
        let (live, word) = (rest[1] == b'W', word(rest));
        rest = &rest[BOOK_RECORD_HEAD + count..];
        Some((live, word))
    })
}

/// Whether the weights of a word begin with those of another.
fn begins(word: &[u16], query: &[u16]) -> bool {
    let (word, query) = (oracle::key(word), oracle::key(query));
    word.is_ok_and(|word| query.is_ok_and(|query| word.row().starts_with(query.row())))
}
