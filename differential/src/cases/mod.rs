//! Inputs made by chance, the same for the same seed on every machine.

mod books;
mod labels;
mod lines;
mod queries;
mod records;
mod shelf;
mod words;

use crate::call::{Call, Maker};
use crate::case::Case;
use crate::library::Library;
use crate::outcome::{Answer, Outcome};
use crate::reference::Reference;
use oracle::limits::{BOOK_RECORDS_LIMIT, KEY_SIZE, RECORD_SIZE, SPELLED_LIMIT, WORD_LIMIT};
use oracle::random::Random;
use shelf::Shelf;
use std::mem::swap;
use std::sync::LazyLock;

/// A maker of inputs. Those on labels, and previews, are made by generators of their own, so that the
/// others are what they are without them.
pub struct Cases {
    random: Random,
    label_random: Random,
    preview_random: Random,
    shelf: Shelf,
}

/// So many of a hundred inputs are on labels.
const ON_LABELS: usize = 12;

/// So many of a hundred inputs are previews; more of them while there is a long book, which is rare
/// and has few calls.
const PREVIEWS: usize = 9;
const PREVIEWS_OF_LONG_BOOKS: usize = 25;

/// Room for whatever a call on a word writes: nothing is longer than a spelled word.
const ENOUGH: usize = SPELLED_LIMIT;

/// The calls on words and lines, each as often as it is picked.
static WORD_CALLS: LazyLock<Vec<Call>> = LazyLock::new(|| Call::made_by(Maker::Words));

impl Cases {
    /// The inputs of a seed.
    pub fn new(seed: u64) -> Cases {
        Cases {
            random: Random::of(&format!("differential {seed}")),
            label_random: Random::of(&format!("labels {seed}")),
            preview_random: Random::of(&format!("previews {seed}")),
            shelf: Shelf::new(),
        }
    }

    /// The next input.
    pub fn next_case(&mut self) -> Case {
        let previews = if self.shelf.is_long() { PREVIEWS_OF_LONG_BOOKS } else { PREVIEWS };
        if self.preview_random.chance(previews) {
            return books::of_call(&mut self.preview_random, &self.shelf, Call::BookPreview);
        }
        if self.label_random.chance(ON_LABELS) {
            return labels::case(&mut self.label_random);
        }
        if self.random.chance(42) {
            return books::case(&mut self.random, &mut self.shelf);
        }
        let call = self.random.pick(&WORD_CALLS);
        let mut case = match call {
            Call::Write => Case::of_bytes(call, records::records(&mut self.random)),
            Call::Decode => Case::of_bytes(call, lines::line(&mut self.random)),
            _ => Case::of_word(call, words::word(&mut self.random)),
        };
        if call.takes_two_words() {
            case.second = words::neighbour(&mut self.random, &case.word);
            if self.random.chance(50) {
                swap(&mut case.word, &mut case.second);
            }
        }
        case.numbers = self.numbers(&case);
        case
    }

    /// Takes note of what the other implementation answered, so that a book goes on from there.
    pub fn take_note(&mut self, case: &Case, outcome: &Outcome) {
        self.shelf.take_note(case, outcome);
    }

    /// Numbers near those that decide: the rooms that are just enough, the number of syllables or
    /// of stored values.
    fn numbers(&mut self, case: &Case) -> [usize; 2] {
        match case.call {
            Call::Key => [self.near(KEY_SIZE), 0],
            Call::Record | Call::Part => [self.number(syllables(case)), 0],
            Call::RecordBytes => [self.near(RECORD_SIZE), self.number(syllables(case))],
            Call::TypedPlace => {
                let stored = Case { call: Call::StoredForm, numbers: [ENOUGH; 2], ..case.clone() };
                [self.number(accepted(&stored)[0]), 0]
            }
            call if call.row().outputs.is_empty() => [0; 2],
            _ => needed(case).map(|needed| self.near(needed)),
        }
    }

    fn near(&mut self, needed: usize) -> usize {
        near(&mut self.random, needed)
    }

    /// The number of one of so many, sometimes of one that is not there.
    fn number(&mut self, count: usize) -> usize {
        match self.random.below(20) {
            0 => {
                let any = [usize::MAX, 1 << 32, 1 << 8, 1 << 16, WORD_LIMIT, WORD_LIMIT - 1];
                self.random.pick(&any)
            }
            1..4 => count + self.random.below(2),
            _ => self.random.below(count.max(1)),
        }
    }
}

/// A room from none to more than enough.
fn near(random: &mut Random, needed: usize) -> usize {
    match random.below(13) {
        0..4 => needed,
        4 => needed.saturating_sub(1),
        5..7 => needed + random.pick(&[1, 1, 2, 5]),
        7 => 0,
        _ => random.below(needed + 1),
    }
}

/// How many syllables the word has; none where it is refused.
fn syllables(case: &Case) -> usize {
    accepted(&Case { call: Call::Read, ..case.clone() })[0]
}

/// How much is written where there is room enough; zeros where the case is refused.
fn needed(case: &Case) -> [usize; 2] {
    let enough = if case.call.takes_book() { BOOK_RECORDS_LIMIT } else { ENOUGH };
    accepted(&Case { numbers: [enough; 2], ..case.clone() })
}

/// The numbers with which the other implementation accepts a case; zeros where it does not.
fn accepted(case: &Case) -> [usize; 2] {
    match Reference.outcome(case).answer {
        Answer::Accepted(numbers) => {
            [0, 1].map(|number| numbers.get(number).map_or(0, |&number| number as usize))
        }
        _ => [0; 2],
    }
}
