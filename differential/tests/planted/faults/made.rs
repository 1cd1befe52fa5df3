//! A call that was made, and what a fault may change of it.

use differential::{Answer, Case, Lent, Library, Memory, Outcome, Proved, MARGIN};

/// A call with its outcome.
pub struct Made<'c> {
    pub case: &'c Case,
    pub answer: Answer,
    pub lent: Vec<Memory>,
}

impl Made<'_> {
    pub fn tag(&self) -> u8 {
        self.answer.tag().expect("an answer")
    }

    /// Changes the numbers of an accepted answer.
    pub fn change(&mut self, change: impl FnOnce(&mut Vec<u64>)) {
        if let Answer::Accepted(numbers) = &mut self.answer {
            change(numbers);
        }
    }

    /// The first number of an accepted answer.
    pub fn number(&self) -> Option<usize> {
        match &self.answer {
            Answer::Accepted(numbers) => numbers.first().map(|&number| number as usize),
            _ => None,
        }
    }

    /// Changes the place of a refusal with the number.
    pub fn change_place(&mut self, wanted: u8, change: impl FnOnce(usize) -> usize) {
        if let Answer::Refused { number, place, .. } = &mut self.answer {
            *place = if *number == wanted { change(*place) } else { *place };
        }
    }

    /// Says of a refusal with the number that it is the first word's.
    pub fn say_of_first(&mut self, wanted: u8) {
        if let Answer::Refused { number, which, .. } = &mut self.answer {
            *which = if *number == wanted { 1 } else { *which };
        }
    }

    pub fn accept_if(&mut self, does: bool, numbers: &[usize]) {
        if does {
            self.answer = accepted(numbers);
        }
    }

    pub fn refuse_if(&mut self, does: bool, number: u8, place: usize) {
        if does {
            self.answer = refused(number, place);
        }
    }

    /// Refuses at the place, if there is one and the call was accepted.
    pub fn refuse_at(&mut self, number: u8, place: Option<usize>) {
        self.refuse_if(self.tag() == 0 && place.is_some(), number, place.unwrap_or(0));
    }

    /// The first of the numbers that are handed in: most often the room of the output.
    pub fn room(&self) -> usize {
        self.case.numbers[0]
    }

    /// The bytes that were lent as the argument of a number, and the margin behind them.
    pub fn bytes(&mut self, argument: usize) -> &mut [u8] {
        match &mut self.lent[argument] {
            Memory::Bytes(cells) => &mut cells[MARGIN..],
            Memory::Values(_) => panic!("argument {argument} has values"),
        }
    }

    /// The same of values.
    pub fn values(&mut self, argument: usize) -> &mut [u16] {
        match &mut self.lent[argument] {
            Memory::Values(cells) => &mut cells[MARGIN..],
            Memory::Bytes(_) => panic!("argument {argument} has bytes"),
        }
    }

    /// Clears a cell of what was lent as the argument of a number.
    pub fn clear_if(&mut self, does: bool, argument: usize, place: usize) {
        match &mut self.lent[argument] {
            _ if !does => {}
            Memory::Bytes(cells) => cells[MARGIN + place] = 0,
            Memory::Values(cells) => cells[MARGIN + place] = 0,
        }
    }

    /// Clears the first cell of the output though there is not room enough.
    pub fn write_though_short(&mut self, argument: usize) {
        self.clear_if(self.tag() == 5 && self.room() > 0, argument, 0);
    }

    /// The book as it is left.
    pub fn book(&mut self) -> &mut [u8] {
        let length = self.case.bytes.len();
        &mut self.bytes(0)[..length]
    }

    /// The word as it is stored; nothing where it is refused.
    pub fn stored(&self) -> Vec<u16> {
        jogcairn::normalise(&self.case.word).unwrap_or_default()
    }

    /// Answers for another word, and leaves in an output what is left there for it.
    pub fn answer_for(&mut self, word: Vec<u16>) {
        self.take(&Case { word, ..self.case.clone() });
    }

    /// The same for other bytes.
    pub fn answer_for_bytes(&mut self, bytes: Vec<u8>) {
        self.take(&Case { bytes, ..self.case.clone() });
    }

    fn take(&mut self, other: &Case) {
        let Outcome { answer, lent } = Proved.outcome(other);
        self.answer = answer;
        // The first argument is handed in.
        self.lent.truncate(1);
        self.lent.extend(lent.into_iter().skip(1));
    }

    /// Gives these values for an answer, in the output, which is lent last.
    pub fn give(&mut self, values: &[u16]) {
        let mut output = Lent::output(self.room());
        self.answer = refused(5, values.len());
        if let Some(front) = output.inside_mut().get_mut(..values.len()) {
            front.copy_from_slice(values);
            self.answer = accepted(&[values.len()]);
        }
        *self.lent.last_mut().expect("an output") = output.after();
    }
}

pub fn accepted(numbers: &[usize]) -> Answer {
    Answer::Accepted(numbers.iter().map(|&number| number as u64).collect())
}

pub fn refused(number: u8, place: usize) -> Answer {
    Answer::Refused { number, place, which: 0 }
}

pub fn is_independent(value: u16) -> bool {
    matches!(value, 0x1023..=0x1027 | 0x1029 | 0x102A)
}
