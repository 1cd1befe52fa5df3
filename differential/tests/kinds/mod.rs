//! Kinds of inputs.

use differential::{answered, Answer, Case, Outcome};
use std::sync::LazyLock;

/// Whether the case is of the kind.
pub type Kind = fn(&Case, &Outcome) -> bool;

/// How many inputs are looked at.
pub const INPUTS: usize = 100_000;

/// The inputs, with what the other implementation answers to them.
static ANSWERED: LazyLock<Vec<(Case, Outcome)>> = LazyLock::new(|| answered(1, INPUTS));

/// Shows that inputs of each kind are made.
pub fn demand(kinds: &[(&str, Kind)]) {
    demand_among(|_| true, kinds);
}

/// Shows that inputs of each kind are made among those that are asked for.
pub fn demand_among(asked_for: impl Fn(&Case) -> bool, kinds: &[(&str, Kind)]) {
    let among = || ANSWERED.iter().filter(|(case, _)| asked_for(case));
    let made = |kind: &Kind| among().any(|(case, outcome)| kind(case, outcome));
    let missing = kinds.iter().filter(|(_, kind)| !made(kind)).map(|(name, _)| *name);
    let missing: Vec<&str> = missing.collect();
    assert!(missing.is_empty(), "{missing:?}");
}

pub fn place_of(outcome: &Outcome, wanted: u8) -> Option<usize> {
    match *outcome.answer.of_add() {
        Answer::Refused { number, place, .. } if number == wanted => Some(place),
        _ => None,
    }
}
