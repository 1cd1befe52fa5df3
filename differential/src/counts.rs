//! How often each call gave each answer.

use crate::call::Call;
use crate::outcome::Answer;
use std::collections::{BTreeMap, BTreeSet};
use std::fmt;
use std::iter::once;

/// Counts by call, by the row of the call, and by tag.
#[derive(Default)]
pub struct Counts {
    counts: BTreeMap<(Call, u8, u8), usize>,
}

/// The tags that answers have, in the order of the columns.
fn columns() -> BTreeSet<u8> {
    Call::all().flat_map(|call| call.tags()).copied().collect()
}

/// The row of labels that look alike, behind those of the refused ones.
const ALIKE: u8 = 3;

impl Counts {
    /// No answers yet.
    pub fn new() -> Counts {
        Counts::default()
    }

    /// Counts an answer.
    pub fn count(&mut self, call: Call, answer: &Answer) {
        let row = match answer {
            Answer::Refused { which, .. } => *which,
            Answer::Accepted(numbers) if call == Call::BookAdd => numbers[1] as u8,
            Answer::Previewed { tidies, .. } => u8::from(*tidies),
            Answer::Accepted(numbers) if call == Call::LookAlike => ALIKE * numbers[0] as u8,
            _ => 0,
        };
        if let Some(tag) = answer.tag() {
            *self.counts.entry((call, row, tag)).or_default() += 1;
        }
    }

    /// How often a call gave the tag, by its row.
    pub fn of(&self, call: Call, row: u8, tag: u8) -> usize {
        self.counts.get(&(call, row, tag)).copied().unwrap_or(0)
    }

    /// All answers that were counted.
    pub fn total(&self) -> usize {
        self.counts.values().sum()
    }

    /// The answers that a call can give and never gave.
    pub fn missing(&self) -> Vec<String> {
        let rows = Call::all().flat_map(rows);
        let cells = rows.flat_map(|(call, row, name)| {
            tags(call, row).map(move |tag| (call, row, tag, name.clone()))
        });
        cells
            .filter(|&(call, row, tag, _)| self.of(call, row, tag) == 0)
            .map(|(_, _, tag, name)| format!("{name}: {}", column_name(tag)))
            .collect()
    }
}

/// The rows of a call: of two words, refusals of each have a row of their own, and so have the labels
/// that look alike, the adds that tidied and the previews that tell of tidying.
fn rows(call: Call) -> Vec<(Call, u8, String)> {
    let name = call.name();
    let further =
        call.row().apart.iter().zip(1..).map(|(what, row)| (call, row, format!("{name}, {what}")));
    once((call, 0, name.to_string())).chain(further).collect()
}

/// The tags that a row can have.
fn tags(call: Call, row: u8) -> impl Iterator<Item = u8> {
    let fits = move |tag: &&u8| match (call, row) {
        (Call::BookAdd | Call::BookPreview, 1) | (Call::LookAlike, ALIKE) => **tag == 0,
        _ => !call.takes_two_words() || (row == 0) == (**tag == 0),
    };
    call.tags().iter().filter(fits).copied()
}

fn column_name(tag: u8) -> String {
    match tag {
        0 => "accepted".to_string(),
        128 => "none".to_string(),
        number => number.to_string(),
    }
}

impl fmt::Display for Counts {
    fn fmt(&self, f: &mut fmt::Formatter<'_>) -> fmt::Result {
        write!(f, "{:22}", "answers")?;
        columns().into_iter().try_for_each(|tag| write!(f, "{:>9}", column_name(tag)))?;
        for (call, row, name) in Call::all().flat_map(rows) {
            write!(f, "\n{name:22}")?;
            for column in columns() {
                if tags(call, row).any(|tag| tag == column) {
                    write!(f, "{:>9}", self.of(call, row, column))?;
                } else {
                    write!(f, "{:>9}", "-")?;
                }
            }
        }
        Ok(())
    }
}
