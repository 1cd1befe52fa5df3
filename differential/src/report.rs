//! What is printed.

use crate::counts::Counts;
use crate::running::Finding;
use std::fmt;

/// The report of a run.
pub struct Report<'r> {
    /// The answers that agreed.
    pub counts: &'r Counts,
    /// The smallest input with different outcomes, if any was found.
    pub finding: Option<&'r Finding>,
}

impl fmt::Display for Report<'_> {
    fn fmt(&self, f: &mut fmt::Formatter<'_>) -> fmt::Result {
        writeln!(f, "{}", self.counts)?;
        match self.finding {
            None => {
                let missing = self.counts.missing();
                if !missing.is_empty() {
                    writeln!(f, "not reached: {}", missing.join("; "))?;
                }
                write!(f, "{} inputs, no difference", self.counts.total())
            }
            Some(Finding { input, case, difference: found }) => {
                writeln!(f, "a difference at input {input}; the smallest such input is")?;
                writeln!(f, "{case}")?;
                writeln!(f, "  proved: {}", found.tried.beside(&found.reference))?;
                write!(f, "  oracle: {}", found.reference.beside(&found.tried))
            }
        }
    }
}
