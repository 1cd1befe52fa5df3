//! Faults that are planted on purpose must be found.

mod faults;
mod smallest;

use differential::{answered, Call, Case, Outcome};
use faults::Seen::{Answers, Left};
use faults::{fault, Fault, Seen, ALL, RIGHT};
use std::sync::LazyLock;

/// A fault is found within so many inputs, a tenth of what a run has by default.
const INPUTS: usize = 100_000;

static ANSWERED: LazyLock<Vec<(Case, Outcome)>> = LazyLock::new(|| answered(1, INPUTS));

/// What is seen of the fault, input by input.
fn seen(fault: &Fault) -> impl Iterator<Item = Seen> + '_ {
    ANSWERED.iter().filter_map(|(case, _)| fault.shown_by(case))
}

/// Says what is amiss if the fault is not seen as it must be.
fn demand(fault: &Fault) -> Result<(), String> {
    match seen(fault).any(|seen| seen == fault.seen) {
        true => Ok(()),
        false => Err(format!("{}, {}: no {:?}", fault.call.name(), fault.what, fault.seen)),
    }
}

#[test]
fn every_fault_is_found() {
    let faults = ALL.into_iter().flatten();
    let missing: Vec<String> = faults.filter_map(|fault| demand(fault).err()).collect();
    assert!(missing.is_empty(), "{missing:#?}");
}

/// Rules that are right show no difference, so that what others show is their own fault.
#[test]
fn the_right_rules_are_not_found() {
    for right in &RIGHT {
        assert_eq!(seen(right).next(), None, "{}", right.what);
        assert!(demand(right).is_err(), "{}", right.what);
    }
}

/// What changes nothing is no fault, and neither is one that shows otherwise than is said.
#[test]
fn a_fault_that_is_not_seen_as_it_is_said_is_complained_of() {
    let nothing = fault(Call::Read, "nothing", Answers(0, 0), |_| {});
    assert_eq!(demand(&nothing), Err("read, nothing: no Answers(0, 0)".to_string()));
    let refusing = |call, seen| fault(call, "a refusal", seen, |it| it.refuse_if(true, 99, 0));
    assert_eq!(demand(&refusing(Call::Read, Answers(99, 0))), Ok(()));
    for seen in [Answers(0, 0), Answers(99, 15), Left(0), Left(99)] {
        assert!(demand(&refusing(Call::Read, seen)).is_err(), "{seen:?}");
    }
    // A fault of one call is not looked for in others.
    assert!(demand(&refusing(Call::BookTidy, Answers(99, 3))).is_err());
}
