//! Faults of the proved library: in which call, what is planted, and what must be seen.

mod books;
mod labels;
pub mod made;
mod previews;
mod readings;
mod records;
mod searches;

use differential::{difference, Call, Case, Difference, Library, Outcome, Proved, Reference};
use made::Made;

/// A fault.
pub struct Fault {
    pub call: Call,
    pub what: &'static str,
    pub seen: Seen,
    /// Puts it into what the call answered and left behind.
    pub plant: fn(&mut Made),
}

/// How the outcomes of a call differ, by the tags of its answers.
#[derive(Clone, Copy, Debug, PartialEq, Eq)]
pub enum Seen {
    /// The answers: the faulty one's tag, and that of the other implementation's.
    Answers(u8, u8),
    /// Only what is left behind.
    Left(u8),
}

/// For the tag of a call that ends in a panic, which has no answer.
pub const PANIC: u8 = 255;

pub const fn fault(call: Call, what: &'static str, seen: Seen, plant: fn(&mut Made)) -> Fault {
    Fault { call, what, seen, plant }
}

/// All faults.
pub const ALL: [&[Fault]; 6] = [
    readings::FAULTS,
    records::FAULTS,
    labels::FAULTS,
    searches::FAULTS,
    books::FAULTS,
    previews::FAULTS,
];

/// Rules that are right, put in as the wrong ones are.
pub const RIGHT: [Fault; 5] =
    [records::RIGHT, labels::RIGHT, searches::RIGHT, books::RIGHT, previews::RIGHT];

/// The proved library with the fault.
impl Library for Fault {
    fn outcome(&self, case: &Case) -> Outcome {
        let Outcome { answer, lent } = Proved.outcome(case);
        let mut made = Made { case, answer, lent };
        if case.call == self.call {
            (self.plant)(&mut made);
        }
        Outcome { answer: made.answer, lent: made.lent }
    }
}

impl Fault {
    /// What is seen of it in a case, which must be on its call.
    pub fn shown_by(&self, case: &Case) -> Option<Seen> {
        let case = Some(case).filter(|case| case.call == self.call)?;
        difference(self, &Reference, case).map(seen_of)
    }
}

fn seen_of(Difference { tried, reference }: Difference) -> Seen {
    let [first, second] = [&tried, &reference].map(|it| it.answer.tag().unwrap_or(PANIC));
    match tried.answer == reference.answer {
        true => Seen::Left(first),
        false => Seen::Answers(first, second),
    }
}
