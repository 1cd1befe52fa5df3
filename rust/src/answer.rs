//! The one number that every call of the library answers.

use crate::refusal::{Reason, Refusal};
use std::cmp::Ordering;

/// An answer: tag * 2^56 + second * 2^32 + first.
#[derive(Clone, Copy)]
pub(crate) struct Answer(u64);

/// The tag of an accepted input.
const ACCEPTED: u8 = 0;

/// The tag where there is nothing of the number asked for, which is no refusal.
const NONE: u8 = 128;

impl Answer {
    /// The answer that a call gave.
    pub(crate) fn new(number: u64) -> Answer {
        Answer(number)
    }

    fn tag(self) -> u8 {
        (self.0 >> 56) as u8
    }

    fn first(self) -> u32 {
        self.0 as u32
    }

    fn second(self) -> u32 {
        (self.0 >> 32) as u32 & 0x00FF_FFFF
    }

    /// The one number of an accepted input.
    pub(crate) fn one(self) -> Result<usize, Refusal> {
        let (first, second) = self.two()?;
        self.demand(second == 0);
        Ok(first as usize)
    }

    /// The two numbers of an accepted input, the first one first.
    pub(crate) fn two(self) -> Result<(u32, usize), Refusal> {
        match self.tag() {
            ACCEPTED => Ok((self.first(), self.second() as usize)),
            _ => Err(self.refusal(0)),
        }
    }

    /// The first number of an accepted input, and the second as yes (1) or no (0).
    pub(crate) fn one_and_whether(self) -> Result<(usize, bool), Refusal> {
        let (first, second) = self.two()?;
        self.demand(second <= 1);
        Ok((first as usize, second == 1))
    }

    /// The one number of a thing asked for by number, or nothing where there is no such thing.
    pub(crate) fn one_or_none(self) -> Result<Option<usize>, Refusal> {
        let numbers = self.two_or_none()?;
        Ok(numbers.map(|(first, second)| {
            self.demand(second == 0);
            first as usize
        }))
    }

    /// The two numbers of a thing asked for by number, or nothing where there is no such thing.
    pub(crate) fn two_or_none(self) -> Result<Option<(u32, usize)>, Refusal> {
        match self.tag() {
            NONE => {
                self.demand(self.first() == 0 && self.second() == 0);
                Ok(None)
            }
            _ => self.two().map(Some),
        }
    }

    /// Which of two words is refused, and why; nothing where both are accepted.
    pub(crate) fn refused_word(self) -> Option<(u32, Refusal)> {
        let which = self.second();
        (self.tag() != ACCEPTED).then(|| (which, self.refusal(which)))
    }

    /// The order of two accepted words: 0 less, 1 equal, 2 greater.
    pub(crate) fn ordering(self) -> Ordering {
        match self.0 {
            0 => Ordering::Less,
            1 => Ordering::Equal,
            2 => Ordering::Greater,
            _ => self.outside(),
        }
    }

    /// Whether something holds of two accepted words: 0 no, 1 yes.
    pub(crate) fn whether(self) -> bool {
        self.demand(self.0 <= 1);
        self.0 == 1
    }

    /// The refusal, whose second number must be as given.
    fn refusal(self, second: u32) -> Refusal {
        self.demand(self.second() == second);
        match Reason::of_number(self.tag()) {
            Some(reason) => Refusal { reason, place: self.first() as usize },
            None => self.outside(),
        }
    }

    /// Ends the program where the library's contract excludes the answer.
    pub(crate) fn demand(self, holds: bool) {
        if !holds {
            self.outside()
        }
    }

    fn outside(self) -> ! {
        panic!("the library's contract excludes the answer {:016X}", self.0)
    }
}

#[cfg(test)]
mod tests {
    use super::*;
    use crate::BOOK_LIMIT;

    fn packed(tag: u64, second: u64, first: u64) -> Answer {
        Answer::new((tag << 56) + (second << 32) + first)
    }

    #[test]
    fn the_two_numbers_are_taken_apart() {
        assert_eq!(packed(0, 0, 64).one(), Ok(64));
        let most = packed(0, 0x00FF_FFFF, 0xFFFF_FFFF).two();
        assert_eq!(most, Ok((u32::MAX, 0x00FF_FFFF)));
        assert_eq!(packed(0, 0, 85).one_and_whether(), Ok((85, false)));
        assert_eq!(packed(0, 1, 85).one_and_whether(), Ok((85, true)));
        assert_eq!(packed(0, 0, 8).one_or_none(), Ok(Some(8)));
        assert_eq!(packed(0, 2, 8).two_or_none(), Ok(Some((8, 2))));
        assert_eq!(packed(128, 0, 0).one_or_none(), Ok(None));
        assert_eq!(packed(128, 0, 0).two_or_none(), Ok(None));
    }

    #[test]
    fn a_refusal_has_its_number_and_place() {
        let refusal = Refusal { reason: Reason::NotABook, place: BOOK_LIMIT };
        assert_eq!(packed(11, 0, BOOK_LIMIT as u64).one(), Err(refusal));
        assert_eq!(packed(11, 2, BOOK_LIMIT as u64).refused_word(), Some((2, refusal)));
        assert_eq!(packed(0, 0, 2).refused_word(), None);
        assert_eq!(packed(0, 0, 2).ordering(), Ordering::Greater);
        assert!(packed(0, 0, 1).whether() && !packed(0, 0, 0).whether());
    }

    #[test]
    fn an_answer_that_the_contract_excludes_ends_the_program() {
        let excluded: [fn() -> bool; 10] = [
            || packed(9, 0, 0).one().is_ok(),
            || packed(128, 0, 0).one().is_ok(),
            || packed(0, 1, 0).one().is_ok(),
            || packed(0, 2, 0).one_and_whether().is_ok(),
            || packed(0, 1, 8).one_or_none().is_ok(),
            || packed(128, 0, 8).one_or_none().is_ok(),
            || packed(3, 1, 0).two().is_ok(),
            || packed(0, 0, 3).ordering().is_eq(),
            || packed(0, 0, 2).whether(),
            || packed(0, 1, 1).whether(),
        ];
        for call in excluded {
            assert!(std::panic::catch_unwind(call).is_err());
        }
    }
}
