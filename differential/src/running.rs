//! Comparing two libraries on many inputs.

use crate::case::Case;
use crate::cases::Cases;
use crate::counts::Counts;
use crate::library::Library;
use crate::outcome::Outcome;
use crate::reference::Reference;
use crate::shrinking::smallest;

/// The outcomes of a case, where they differ.
pub struct Difference {
    /// The outcome of the library that is tried.
    pub tried: Outcome,
    /// The outcome of the other.
    pub reference: Outcome,
}

/// The smallest case that was found with different outcomes.
pub struct Finding {
    /// The number of the input that showed the difference first, from 0.
    pub input: usize,
    /// The case.
    pub case: Case,
    /// Its outcomes.
    pub difference: Difference,
}

/// How the outcomes of a case differ, if they do.
pub fn difference(tried: &dyn Library, reference: &dyn Library, case: &Case) -> Option<Difference> {
    let reference = reference.outcome_or_panic(case);
    let tried = tried.outcome_or_panic(case);
    (!tried.agrees_with(&reference)).then_some(Difference { tried, reference })
}

/// Compares on so many inputs, or up to the first difference, and counts the answers.
pub fn run(
    tried: &dyn Library,
    reference: &dyn Library,
    seed: u64,
    inputs: usize,
) -> (Counts, Option<Finding>) {
    let mut cases = Cases::new(seed);
    let mut counts = Counts::new();
    for input in 0..inputs {
        let case = cases.next_case();
        let expected = reference.outcome_or_panic(&case);
        if !tried.outcome_or_panic(&case).agrees_with(&expected) {
            let case = smallest(case, |case| difference(tried, reference, case).is_some());
            let difference = difference(tried, reference, &case).expect("a case that differs");
            return (counts, Some(Finding { input, case, difference }));
        }
        counts.count(case.call, &expected.answer);
        cases.take_note(&case, &expected);
    }
    (counts, None)
}

/// The first inputs of a seed, each with what the other implementation answers to it.
pub fn answered(seed: u64, inputs: usize) -> Vec<(Case, Outcome)> {
    let mut cases = Cases::new(seed);
    let mut next = || {
        let case = cases.next_case();
        let outcome = Reference.outcome(&case);
        cases.take_note(&case, &outcome);
        (case, outcome)
    };
    (0..inputs).map(|_| next()).collect()
}
