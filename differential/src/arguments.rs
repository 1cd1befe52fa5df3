//! What is lent to a call: the arguments of a case, each between its margins.

use crate::call::{Output, Row};
use crate::case::Case;
use crate::lent::{Lent, Memory};
use crate::outcome::{Answer, Outcome};

/// The arguments. Those that the call does not take are empty.
pub struct Arguments {
    /// Records, a line or a book.
    pub bytes: Lent<u8>,
    /// The word, or the first of two.
    pub word: Lent<u16>,
    /// The second of two words.
    pub second: Lent<u16>,
    /// The output, if it is of values.
    pub values: Lent<u16>,
    /// The output, if it is of bytes.
    pub written: Lent<u8>,
    /// The second output.
    pub starts: Lent<u16>,
    /// The numbers.
    pub numbers: [usize; 2],
}

/// The outcome of a call by its case: what is answered, and how everything is left.
pub fn outcome_of(case: &Case, answer: impl FnOnce(&mut Arguments) -> Answer) -> Outcome {
    let mut arguments = Arguments::of(case);
    Outcome { answer: answer(&mut arguments), lent: arguments.after(case.call.row()) }
}

impl Arguments {
    fn of(case: &Case) -> Arguments {
        let outputs = case.call.row().outputs;
        let room = |number: usize, kind| match outputs.get(number) {
            Some(&output) if output == kind => case.numbers[number],
            _ => 0,
        };
        Arguments {
            bytes: Lent::input(&case.bytes),
            word: Lent::input(&case.word),
            second: Lent::input(&case.second),
            values: Lent::output(room(0, Output::Values)),
            written: Lent::output(room(0, Output::Bytes)),
            starts: Lent::output(room(1, Output::Values)),
            numbers: case.numbers,
        }
    }

    /// What the call was lent, in the order of its parameters.
    fn after(self, row: &Row) -> Vec<Memory> {
        let bytes = row.bytes.map(|_| self.bytes.after());
        let words = [self.word, self.second].into_iter().take(row.lists.len()).map(Lent::after);
        let first = row.outputs.first().map(|output| match output {
            Output::Values => self.values.after(),
            Output::Bytes => self.written.after(),
        });
        let second = row.outputs.get(1).map(|_| self.starts.after());
        bytes.into_iter().chain(words).chain(first).chain(second).collect()
    }
}
