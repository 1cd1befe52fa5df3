//! What has answers.

use crate::case::Case;
use crate::outcome::{Answer, Outcome};
use std::panic::{catch_unwind, AssertUnwindSafe};

/// An implementation of every call.
pub trait Library {
    /// What a call on the case answers and leaves behind.
    fn outcome(&self, case: &Case) -> Outcome;

    /// The same, where a panic is an outcome too.
    fn outcome_or_panic(&self, case: &Case) -> Outcome {
        catch_unwind(AssertUnwindSafe(|| self.outcome(case))).unwrap_or_else(|payload| {
            let message = match payload.downcast::<String>() {
                Ok(message) => *message,
                Err(payload) => payload.downcast_ref::<&str>().unwrap_or(&"").to_string(),
            };
            Outcome { answer: Answer::Panicked(message), lent: Vec::new() }
        })
    }
}
