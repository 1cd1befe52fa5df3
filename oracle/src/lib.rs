//! A reference implementation of document 01, "Myanmar words, their syllables
//! and a word book", and of what document 02 asks beyond it, made to be compared
//! with.
//!
//! Its method is the formula itself. [`formula`] lists every possible writing of
//! every piece of a syllable; [`rows`] counts the ways in which a list of
//! values can be cut into such writings, and finds the longest beginning that
//! can still be completed. Nothing else decides what a word is.

#![forbid(unsafe_code)]
#![warn(missing_docs)]

pub mod book;
pub mod calls;
pub mod collation;
pub mod formula;
pub mod labels;
pub mod letters;
pub mod limits;
pub mod line;
pub mod lists;
pub mod program;
pub mod random;
pub mod reading;
pub mod refusal;
pub mod rows;
pub mod spelling;
pub mod storage;
pub mod syllable;
pub mod word;
pub mod writing;

pub use collation::{compare, key, Key, Which};
pub use labels::{label, look_alike, put_skeleton, skeleton};
pub use line::decode;
pub use reading::{part, put_record, read, record, Reading, RecordAnswer};
pub use refusal::Refusal;
pub use spelling::spell_out;
pub use storage::{normalise, stored_form, typed_place};
pub use word::Word;
pub use writing::write;
