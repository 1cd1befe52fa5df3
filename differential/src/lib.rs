//! Compares every call of the proved library, through the crate `jogcairn`, with `oracle`, the other
//! implementation: on the same inputs both must give the same answers and leave everything that was
//! lent in the same state.
//!
//! [`cases`] makes the inputs, [`Library`] is what has answers to them, [`run`] compares two of
//! them, and [`smallest`] makes an input smaller on which they differ.

#![forbid(unsafe_code)]
#![warn(missing_docs)]

mod arguments;
mod call;
mod case;
pub mod cases;
mod counts;
mod lent;
mod library;
mod outcome;
mod proved;
mod reference;
mod report;
mod running;
mod shrinking;

pub use call::Call;
pub use case::Case;
pub use counts::Counts;
pub use lent::{Cell, Lent, Memory, MARGIN};
pub use library::Library;
pub use outcome::{Answer, Outcome};
pub use proved::Proved;
pub use reference::Reference;
pub use report::Report;
pub use running::{answered, difference, run, Difference, Finding};
pub use shrinking::smallest;
