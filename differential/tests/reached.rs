//! The inputs come in all kinds: every state of a book, every room of an output.

mod kinds;
mod recorded;

use differential::cases::Cases;
use differential::{Answer, Call, Case, Library, Outcome, Reference};
use jogcairn::{BOOK_LIMIT, BOOK_RECORD_HEAD, KEY_SIZE, RECORD_SIZE, WORD_LIMIT};
use kinds::{demand, demand_among, place_of, Kind, INPUTS};
use recorded::{record, word};
use std::collections::BTreeSet;

/// The bytes from the place on at which a buffer is no book.
fn wrong_from<'c>(case: &'c Case, outcome: &Outcome) -> Option<&'c [u8]> {
    case.bytes.get(place_of(outcome, 11)?..)
}

#[test]
fn books_come_in_every_state() {
    demand(&[
        ("no bytes", |case, _| case.call == Call::BookCheck && case.bytes.is_empty()),
        ("no records", |case, _| {
            case.call == Call::BookAdd && !case.bytes.is_empty() && case.bytes[0] == 0
        }),
        ("the longest book", |case, outcome| {
            case.bytes.len() == BOOK_LIMIT && matches!(outcome.answer, Answer::Accepted(_))
        }),
        ("the longest book, full", |case, outcome| {
            case.bytes.len() == BOOK_LIMIT && place_of(outcome, 14).is_some()
        }),
        ("a word that was removed, added anew", |case, outcome| {
            let Answer::Accepted(numbers) = &outcome.answer else { return false };
            let letters: Vec<u8> = case.word.iter().map(|value| *value as u8).collect();
            case.call == Call::BookAdd
                && case.bytes[..numbers[0] as usize]
                    .windows(letters.len() + 5)
                    .any(|window| window[0] == letters.len() as u8 && window[5..] == letters)
        }),
    ]);
}

/// How many bytes of a book are live records, removed ones, and free.
struct Lengths {
    live: usize,
    removed: usize,
    free: usize,
}

fn lengths(book: &[u8]) -> Lengths {
    let (mut live, mut removed) = (0, 0);
    while let Some(count) = record(&book[live + removed..]) {
        match book[live + removed + 1] {
            b'W' => live += BOOK_RECORD_HEAD + count,
            _ => removed += BOOK_RECORD_HEAD + count,
        }
    }
    Lengths { live, removed, free: book.len() - live - removed }
}

#[test]
fn books_are_tidied_in_every_state() {
    demand(&[
        ("no bytes", |case, outcome| tidied(case, outcome).is_some() && case.bytes.is_empty()),
        ("no records", |case, outcome| {
            tidied(case, outcome).is_some_and(|it| it.live + it.removed == 0 && it.free > 0)
        }),
        ("none removed", |case, outcome| {
            tidied(case, outcome).is_some_and(|it| it.live > 0 && it.removed == 0)
        }),
        ("some removed", |case, outcome| {
            tidied(case, outcome).is_some_and(|it| it.live > 0 && it.removed > 0)
        }),
        ("all removed", |case, outcome| {
            tidied(case, outcome).is_some_and(|it| it.live == 0 && it.removed > 0)
        }),
        ("none removed, no byte free", |case, outcome| {
            tidied(case, outcome).is_some_and(|it| it.live > 0 && it.removed + it.free == 0)
        }),
        ("some removed, no byte free", |case, outcome| {
            tidied(case, outcome).is_some_and(|it| it.live > 0 && it.removed > 0 && it.free == 0)
        }),
        ("all removed, no byte free", |case, outcome| {
            tidied(case, outcome).is_some_and(|it| it.removed > 0 && it.live + it.free == 0)
        }),
        ("some removed in the longest book", |case, outcome| {
            case.bytes.len() == BOOK_LIMIT
                && tidied(case, outcome).is_some_and(|it| it.live > 0 && it.removed > 0)
        }),
        ("no book behind a removed record and a live one", |case, outcome| {
            let place = place_of(outcome, 11).filter(|_| case.call == Call::BookTidy);
            let before = place.and_then(|place| case.bytes.get(..place)).map(lengths);
            before.is_some_and(|it| it.live > 0 && it.removed > 0)
        }),
        ("an overlong buffer", |case, outcome| {
            case.call == Call::BookTidy && place_of(outcome, 11) == Some(BOOK_LIMIT)
        }),
    ]);
}

/// The lengths of a book that is tidied, before it is.
fn tidied(case: &Case, outcome: &Outcome) -> Option<Lengths> {
    let tidied = case.call == Call::BookTidy && outcome.answer.tag() == Some(0);
    tidied.then(|| lengths(&case.bytes))
}

#[test]
fn records_are_added_in_every_way() {
    demand_of_adds_and_previews(&[
        ("behind the last record", |case, outcome| {
            added(case, outcome, BEHIND).is_some_and(|(it, _)| it.removed == 0)
        }),
        ("behind the last record, some removed", |case, outcome| {
            added(case, outcome, BEHIND).is_some_and(|(it, _)| it.removed > 0)
        }),
        ("behind the last record to the last byte", |case, outcome| {
            added(case, outcome, BEHIND).is_some_and(|(it, record)| record == it.free)
        }),
        ("behind the last record to the last byte, some removed", |case, outcome| {
            added(case, outcome, BEHIND)
                .is_some_and(|(it, record)| it.removed > 0 && record == it.free)
        }),
        ("by tidying", |case, outcome| {
            added(case, outcome, TIDIED).is_some_and(|(it, _)| it.live > 0)
        }),
        ("by tidying, all removed", |case, outcome| {
            added(case, outcome, TIDIED).is_some_and(|(it, _)| it.live == 0)
        }),
        ("by tidying, for one byte", |case, outcome| {
            added(case, outcome, TIDIED).is_some_and(|(it, record)| record == it.free + 1)
        }),
        ("by tidying, to the last byte", |case, outcome| {
            added(case, outcome, TIDIED)
                .is_some_and(|(it, record)| it.live > 0 && record == it.removed + it.free)
        }),
        ("by tidying, no byte free", |case, outcome| {
            added(case, outcome, TIDIED).is_some_and(|(it, _)| it.live > 0 && it.free == 0)
        }),
        ("by tidying, typed longer than stored", |case, outcome| {
            added(case, outcome, TIDIED)
                .is_some_and(|(_, record)| record < BOOK_RECORD_HEAD + case.word.len())
        }),
        ("by tidying the longest book", |case, outcome| {
            case.bytes.len() == BOOK_LIMIT && added(case, outcome, TIDIED).is_some()
        }),
    ]);
}

#[test]
fn records_have_no_room_in_every_way() {
    demand_of_adds_and_previews(&[
        ("none removed", |case, outcome| {
            added(case, outcome, FULL).is_some_and(|(it, _)| it.live > 0 && it.removed == 0)
        }),
        ("some removed", |case, outcome| {
            added(case, outcome, FULL).is_some_and(|(it, _)| it.live > 0 && it.removed > 0)
        }),
        ("all removed", |case, outcome| {
            added(case, outcome, FULL).is_some_and(|(it, _)| it.live == 0 && it.removed > 0)
        }),
        ("for one byte, none removed", |case, outcome| {
            added(case, outcome, FULL)
                .is_some_and(|(it, record)| it.removed == 0 && record == it.free + 1)
        }),
        ("for one byte, some removed", |case, outcome| {
            added(case, outcome, FULL).is_some_and(|(it, record)| {
                it.live > 0 && it.removed > 0 && record == it.removed + it.free + 1
            })
        }),
        ("a live word that tidying would make room for", |case, outcome| {
            added(case, outcome, LIVE)
                .is_some_and(|(it, record)| it.free < record && record <= it.removed + it.free)
        }),
        ("a live word that has no room", |case, outcome| {
            added(case, outcome, LIVE).is_some_and(|(it, record)| it.removed + it.free < record)
        }),
    ]);
}

/// Shows that adds of each kind are made, and previews of each.
fn demand_of_adds_and_previews(kinds: &[(&str, Kind)]) {
    demand_among(|case| case.call == Call::BookAdd, kinds);
    demand_among(|case| case.call == Call::BookPreview, kinds);
}

/// What follows the start in the answer of an add, or the refusal's number.
type Ending = Result<u64, u8>;

const BEHIND: Ending = Ok(0);
const TIDIED: Ending = Ok(1);
const FULL: Ending = Err(14);
const LIVE: Ending = Err(12);

/// The lengths of a book before an add or a preview that ends so, and the bytes of the word's record.
fn added(case: &Case, outcome: &Outcome, wanted: Ending) -> Option<(Lengths, usize)> {
    let ending = match outcome.answer.of_add() {
        _ if !case.call.is_add_or_preview() => return None,
        Answer::Accepted(numbers) => Ok(numbers[1]),
        answer => Err(answer.tag()?),
    };
    let count = oracle::normalise(&case.word, &mut [0; WORD_LIMIT]).ok()?;
    (ending == wanted).then(|| (lengths(&case.bytes), BOOK_RECORD_HEAD + count))
}

#[test]
fn adds_are_previewed_in_every_state() {
    demand_among(
        |case| case.call == Call::BookPreview,
        &[
            ("no bytes", |case, _| case.bytes.is_empty()),
            ("no records", |case, _| case.bytes.first() == Some(&0)),
            ("the longest book, full", |case, outcome| {
                case.bytes.len() == BOOK_LIMIT && added(case, outcome, FULL).is_some()
            }),
            ("a live word behind a removed record", |case, outcome| {
                let place = place_of(outcome, 12);
                place.is_some_and(|place| lengths(&case.bytes[..place]).removed > 0)
            }),
            ("an overlong buffer", |_, outcome| place_of(outcome, 11) == Some(BOOK_LIMIT)),
            ("no book behind a removed record and a live one", |case, outcome| {
                let place = place_of(outcome, 11);
                let before = place.and_then(|place| case.bytes.get(..place)).map(lengths);
                before.is_some_and(|it| it.live > 0 && it.removed > 0)
            }),
            ("a bad word and a bad book", |case, outcome| {
                place_of(outcome, 3).is_some() && oracle::book::check(&case.bytes).is_err()
            }),
            ("no word and a bad book", |case, outcome| {
                place_of(outcome, 8).is_some() && oracle::book::check(&case.bytes).is_err()
            }),
            ("the stock number 0", |case, outcome| {
                case.numbers[0] == 0 && outcome.answer.tag() == Some(0)
            }),
        ],
    );
}

#[test]
fn records_are_asked_for_at_every_kind_of_start() {
    demand(&[
        ("a live record", |case, outcome| told(case, outcome).is_some_and(|told| told[2] == 1)),
        ("a removed record", |case, outcome| told(case, outcome).is_some_and(|told| told[2] == 0)),
        ("the last record", |case, outcome| {
            let letters = case.numbers[1] + BOOK_RECORD_HEAD;
            told(case, outcome).is_some_and(|told| case.bytes.len() == letters + told[0] as usize)
        }),
        ("within a record", |case, outcome| {
            nothing(case, outcome)
                .is_some_and(|start| case.bytes.get(start).is_some_and(|&b| b != 0))
        }),
        ("the first free byte", |case, outcome| {
            nothing(case, outcome).is_some_and(|start| case.bytes.get(start) == Some(&0))
        }),
        ("the end of the buffer", |case, outcome| {
            nothing(case, outcome).is_some_and(|start| start == case.bytes.len())
        }),
        ("far beyond", |case, outcome| {
            nothing(case, outcome).is_some_and(|start| start > 2 * BOOK_LIMIT)
        }),
    ]);
}

/// What is told of a record by its start.
fn told<'o>(case: &Case, outcome: &'o Outcome) -> Option<&'o [u64]> {
    match &outcome.answer {
        Answer::Accepted(numbers) if case.call == Call::BookWord => Some(numbers),
        _ => None,
    }
}

/// A start at which there is no record.
fn nothing(case: &Case, outcome: &Outcome) -> Option<usize> {
    let asked = case.call == Call::BookWord && outcome.answer == Answer::Nothing;
    asked.then_some(case.numbers[1])
}

#[test]
fn words_are_pointed_at_in_every_way() {
    demand(&[
        ("a value that did not move", |case, outcome| {
            pointed(case, outcome).is_some_and(|typed| typed == case.numbers[0])
        }),
        ("a mark that moved to the front", |case, outcome| {
            pointed(case, outcome).is_some_and(|typed| typed > case.numbers[0] + 1)
        }),
        ("a value behind 1025 102E", |case, outcome| {
            let stored = oracle::stored_form(&case.word, &mut [0; WORD_LIMIT]);
            pointed(case, outcome).is_some() && stored.is_ok_and(|count| count < case.word.len())
        }),
        ("a refused word", |case, outcome| {
            pointed(case, outcome).is_some()
                && oracle::normalise(&case.word, &mut [0; WORD_LIMIT]).is_err()
        }),
        ("the end of a word", |case, outcome| {
            let at_end = case.numbers[0] == case.word.len();
            case.call == Call::TypedPlace && outcome.answer == Answer::Nothing && at_end
        }),
    ]);
}

/// Where the value was typed that is asked for.
fn pointed(case: &Case, outcome: &Outcome) -> Option<usize> {
    match &outcome.answer {
        Answer::Accepted(numbers) if case.call == Call::TypedPlace => Some(numbers[0] as usize),
        _ => None,
    }
}

/// The count of values behind the mark of a live record.
fn live_count(bytes: &[u8]) -> Option<usize> {
    match bytes {
        [b'M', b'W', count, ..] => Some(usize::from(*count)),
        _ => None,
    }
}

#[test]
fn books_are_damaged_in_every_way() {
    demand(&[
        ("overlong", |case, outcome| {
            case.bytes.len() > BOOK_LIMIT && place_of(outcome, 11) == Some(BOOK_LIMIT)
        }),
        ("another mark", |case, outcome| {
            wrong_from(case, outcome).is_some_and(|wrong| wrong[0] != b'M' && wrong[0] != 0)
        }),
        ("a stray byte behind zeros", |case, outcome| {
            let place = place_of(outcome, 11).filter(|&place| 0 < place && place < BOOK_LIMIT);
            place.is_some_and(|place| case.bytes[place - 1] == 0 && case.bytes[place] != b'M')
        }),
        ("the mark's second byte", |case, outcome| {
            let wrong = wrong_from(case, outcome);
            wrong
                .is_some_and(|wrong| matches!(wrong, [b'M', second, ..] if !b"W-".contains(second)))
        }),
        ("a lone 4D at the end", |case, outcome| wrong_from(case, outcome) == Some(b"M")),
        ("a record cut by the end", |case, outcome| {
            let wrong = wrong_from(case, outcome);
            wrong.is_some_and(|wrong| {
                live_count(wrong).is_some_and(|count| {
                    (1..=WORD_LIMIT).contains(&count) && wrong.len() < BOOK_RECORD_HEAD + count
                })
            })
        }),
        ("no values", |case, outcome| {
            wrong_from(case, outcome).is_some_and(|wrong| live_count(wrong) == Some(0))
        }),
        ("too many values", |case, outcome| {
            let count = wrong_from(case, outcome).and_then(live_count);
            count.is_some_and(|count| count > WORD_LIMIT)
        }),
        ("a word that is not readable", |case, outcome| {
            let wrong = wrong_from(case, outcome).filter(|wrong| record(wrong).is_some());
            wrong
                .is_some_and(|wrong| oracle::normalise(&word(wrong), &mut [0; WORD_LIMIT]).is_err())
        }),
        ("a word in no storage order", |case, outcome| {
            let wrong = wrong_from(case, outcome).filter(|wrong| record(wrong).is_some());
            wrong.is_some_and(|wrong| {
                let mut stored = [0; WORD_LIMIT];
                let count = oracle::normalise(&word(wrong), &mut stored);
                count.is_ok_and(|count| stored[..count] != word(wrong))
            })
        }),
        ("two equal live words", |case, outcome| {
            let wrong = wrong_from(case, outcome).filter(|wrong| record(wrong).is_some());
            wrong.is_some_and(|wrong| {
                let mut stored = [0; WORD_LIMIT];
                let count = oracle::normalise(&word(wrong), &mut stored);
                count.is_ok_and(|count| stored[..count] == word(wrong))
            })
        }),
        ("a bad word and a bad book", |case, outcome| {
            place_of(outcome, 3).is_some() && oracle::book::check(&case.bytes).is_err()
        }),
    ]);
}

#[test]
fn words_come_in_every_length() {
    let mut cases = Cases::new(1);
    let mut lengths = BTreeSet::new();
    for _ in 0..INPUTS {
        lengths.insert(cases.next_case().word.len());
    }
    assert!((0..=WORD_LIMIT + 2).all(|length| lengths.contains(&length)));
}

#[test]
fn outputs_come_in_every_length_from_none_to_enough() {
    const LONGEST: usize = 6;
    let (rooms, rooms_for_keys) = rooms(4 * INPUTS);
    let of_values =
        [Call::Spell, Call::Write, Call::Normalise, Call::StoredForm, Call::Skeleton, Call::Decode];
    let of_books = [Call::BookFindPrefix, Call::BookOrder, Call::BookWord];
    for call in of_values.into_iter().chain(of_books) {
        // No record is without a value.
        for needed in usize::from(call == Call::BookWord)..=LONGEST {
            for room in 0..=needed + 1 {
                assert!(rooms.contains(&(call, needed as u64, room)), "{call:?} {needed} {room}");
            }
        }
    }
    assert!((0..=KEY_SIZE + 1).all(|room| rooms_for_keys.contains(&room)));
    for room in 0..=RECORD_SIZE + 1 {
        assert!(rooms.contains(&(Call::RecordBytes, RECORD_SIZE as u64, room)), "{room}");
    }
}

/// The room that is needed and the room that there is, by call; and the rooms for keys.
fn rooms(inputs: usize) -> (BTreeSet<(Call, u64, usize)>, BTreeSet<usize>) {
    let mut cases = Cases::new(1);
    let (mut rooms, mut for_keys) = (BTreeSet::new(), BTreeSet::new());
    for _ in 0..inputs {
        let case = cases.next_case();
        let room = case.numbers[0];
        match case.call {
            Call::Key => drop(for_keys.insert(room)),
            call if call.changes_book() => cases.take_note(&case, &Reference.outcome(&case)),
            call if call.number_names().contains(&"room") => {
                let numbers = if call == Call::Spell { [512; 2] } else { [512, case.numbers[1]] };
                let enough = Case { numbers, ..case };
                if let Answer::Accepted(needed) = Reference.outcome(&enough).answer {
                    rooms.insert((call, needed[0], room));
                }
            }
            _ => {}
        }
    }
    (rooms, for_keys)
}
