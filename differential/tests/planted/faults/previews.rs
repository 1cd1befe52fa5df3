//! Previews that tell or change something else.

use super::books::{first_free, has_room, live_length, place_after_tidying, tidy_if};
use super::made::{accepted, refused, Made};
use super::Seen::{Answers, Left};
use super::{fault, Fault};
use differential::Answer;
use differential::Call::BookPreview;
use jogcairn::{Book, BOOK_RECORD_HEAD};

pub const FAULTS: &[Fault] = &[
    fault(BookPreview, "the start before tidying", Answers(0, 0), |it| {
        tell(it, 0, |book, told| told.0 = if told.1 { first_free(book) } else { told.0 })
    }),
    fault(BookPreview, "an answer with the start before tidying", Answers(0, 0), |it| {
        if let Answer::Previewed { add, tidies: true, .. } = &mut it.answer {
            **add = accepted(&[first_free(&it.case.bytes), 1]);
        }
    }),
    fault(BookPreview, "tidying told where the record fits", Answers(0, 0), |it| {
        tell(it, 0, |_, told| told.1 = true)
    }),
    // Wherever there is something to tidy.
    fault(BookPreview, "tidying where the record fits", Answers(0, 0), |it| {
        fit_by(it, |it| (it.live < it.used && it.fits()).then(|| accepting(it.live, true)))
    }),
    fault(BookPreview, "tidying not told", Answers(0, 0), |it| {
        tell(it, 0, |_, told| told.1 = false)
    }),
    fault(BookPreview, "a preview that never tidies", Answers(14, 0), |it| {
        fit_by(it, |it| (!it.fits()).then(|| refusing(14, it.live)))
    }),
    fault(BookPreview, "an exact fit tidied for", Answers(0, 0), |it| {
        fit_by(it, |it| (it.used + it.record == it.book).then(|| accepting(it.live, true)))
    }),
    fault(BookPreview, "an exact fit after tidying refused", Answers(14, 0), |it| {
        fit_by(it, |it| {
            (!it.fits() && it.live + it.record == it.book).then(|| refusing(14, it.live))
        })
    }),
    fault(BookPreview, "a full book forgotten", Answers(0, 14), |it| {
        fit_by(it, |it| (!it.fits()).then(|| accepting(it.live, true)))
    }),
    fault(BookPreview, "a full book placed at its first free byte", Answers(14, 14), |it| {
        fit_by(it, |it| it.is_full().then(|| refusing(14, it.used)))
    }),
    fault(BookPreview, "tidying told of a full book", Answers(14, 14), |it| {
        tell(it, 14, |book, told| told.1 = live_length(book) < first_free(book))
    }),
    // The room is looked at before the word.
    fault(BookPreview, "tidying told of a live word", Answers(12, 12), |it| {
        tell(it, 12, |book, told| told.1 = live_length(book) < first_free(book))
    }),
    fault(BookPreview, "a refusal's place told as the start", Answers(3, 3), |it| {
        let place = match *it.answer.of_add() {
            Answer::Refused { place, .. } => place,
            _ => return,
        };
        if let Answer::Previewed { start, .. } = &mut it.answer {
            *start = place;
        }
    }),
    fault(BookPreview, "the live length told as the start", Answers(14, 14), |it| {
        tell(it, 14, |book, told| told.0 = live_length(book))
    }),
    fault(BookPreview, "the first free byte told of a live word", Answers(12, 12), |it| {
        tell(it, 12, |book, told| told.0 = first_free(book))
    }),
    fault(BookPreview, "a live word accepted", Answers(0, 12), |it| {
        let used = first_free(&it.case.bytes);
        let fits = used + BOOK_RECORD_HEAD + it.case.word.len() <= it.case.bytes.len();
        answer_if(it, 12, fits, accepting(used, false))
    }),
    fault(BookPreview, "a full book tested before its live words", Answers(14, 12), |it| {
        answer_if(it, 12, !has_room(it), refusing(14, live_length(&it.case.bytes)))
    }),
    // The book is copied and tidied before the word is looked for.
    fault(BookPreview, "a live word where tidying moves it", Answers(12, 12), |it| {
        answer_if(it, 12, true, refusing(12, place_after_tidying(it)))
    }),
    fault(BookPreview, "a word counted as it is typed", Answers(14, 0), |it| {
        answer_if(it, 0, !has_room(it), refusing(14, live_length(&it.case.bytes)))
    }),
    fault(BookPreview, "a book tested before the word", Answers(11, 8), |it| {
        if let Err(refusal) = jogcairn::book::check(&it.case.bytes) {
            it.answer = refusing(refusal.number(), refusal.place);
        }
    }),
    fault(BookPreview, "a preview that adds", Left(0), |it| {
        let (word, stock) = (&it.case.word, it.case.numbers[0] as u32);
        // Where it is refused nothing is written.
        let _ = Book::new(it.book()).add(word, stock);
    }),
    fault(BookPreview, "a preview that tidies", Left(0), |it| {
        tidy_if(it, matches!(it.tag(), 0 | 14))
    }),
    fault(BookPreview, "a byte written though refused", Left(11), |it| {
        if let (11, Some(last)) = (it.tag(), it.book().last_mut()) {
            *last ^= 1;
        }
    }),
    fault(BookPreview, "a zero behind the book", Left(0), |it| {
        it.clear_if(true, 0, it.case.bytes.len())
    }),
    fault(BookPreview, "a word stored in its place", Left(0), |it| {
        let stored = it.stored();
        it.values(1)[..stored.len()].copy_from_slice(&stored)
    }),
];

pub const RIGHT: Fault =
    fault(BookPreview, "what fits", Answers(0, 0), |it| fit_by(it, |it| Some(right(it))));

fn previewed(add: Answer, start: usize, tidies: bool) -> Answer {
    Answer::Previewed { add: Box::new(add), start, tidies }
}

/// The preview of an add that is accepted.
fn accepting(start: usize, tidies: bool) -> Answer {
    previewed(accepted(&[start, usize::from(tidies)]), start, tidies)
}

/// The preview of an add that is refused.
fn refusing(number: u8, place: usize) -> Answer {
    previewed(refused(number, place), 0, false)
}

fn answer_if(it: &mut Made, tag: u8, does: bool, answer: Answer) {
    if it.tag() == tag && does {
        it.answer = answer;
    }
}

/// Tells another start, or otherwise whether the book would be tidied, where add's answer has the tag.
fn tell(it: &mut Made, tag: u8, rule: fn(&[u8], &mut (usize, bool))) {
    let is_told = it.tag() == tag;
    if let (true, Answer::Previewed { start, tidies, .. }) = (is_told, &mut it.answer) {
        let mut told = (*start, *tidies);
        rule(&it.case.bytes, &mut told);
        (*start, *tidies) = told;
    }
}

/// What decides over the record of a word that is not live, in bytes.
struct Lengths {
    book: usize,
    /// Up to the first free byte.
    used: usize,
    live: usize,
    record: usize,
}

impl Lengths {
    /// Whether the record fits behind the last one.
    fn fits(&self) -> bool {
        self.used + self.record <= self.book
    }

    /// Whether the record does not fit after tidying either.
    fn is_full(&self) -> bool {
        self.live + self.record > self.book
    }
}

/// Previews by the right rule, but for where another one has an answer; only where neither word nor
/// book is refused and the word is not live.
fn fit_by(it: &mut Made, rule: fn(&Lengths) -> Option<Answer>) {
    if matches!(it.tag(), 0 | 14) {
        let lengths = Lengths {
            book: it.case.bytes.len(),
            used: first_free(&it.case.bytes),
            live: live_length(&it.case.bytes),
            record: BOOK_RECORD_HEAD + it.stored().len(),
        };
        it.answer = rule(&lengths).unwrap_or_else(|| right(&lengths));
    }
}

/// Document 02: "Add tidies by itself when its record doesn't fit otherwise but fits after tidying".
fn right(it: &Lengths) -> Answer {
    match (it.fits(), it.is_full()) {
        (true, _) => accepting(it.used, false),
        (_, true) => refusing(14, it.live),
        _ => accepting(it.live, true),
    }
}
