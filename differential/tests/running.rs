//! Runs: what their inputs reach, and which they are.

use differential::cases::Cases;
use differential::{run, Reference};

#[test]
fn every_answer_is_reached() {
    const FEW: usize = 50_000;
    let (counts, finding) = run(&Reference, &Reference, 1, FEW);
    assert!(finding.is_none());
    assert_eq!(counts.total(), FEW);
    assert!(counts.missing().is_empty(), "{:?}", counts.missing());
}

#[test]
fn the_same_seed_makes_the_same_inputs() {
    let first = |seed| {
        let mut cases = Cases::new(seed);
        (0..100).map(|_| cases.next_case()).collect::<Vec<_>>()
    };
    assert!(first(7) == first(7));
    assert!(first(7) != first(8));
}
