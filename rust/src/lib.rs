//! Myanmar (Burmese) words: their syllables, their one stored spelling, the order in which the
//! dictionary files them, and a word book that gives each word a stock number.
//!
//! Every answer comes from a library that is proved to meet its contract; this crate gives it
//! Rust's types. A word is a slice of code values, `&[u16]`, at most [`WORD_LIMIT`] of them; what is
//! refused is an [`Err`] with a [`Refusal`], which has a number, a place and a sentence.
//!
//! ```
//! use jogcairn::{read, Book, Word};
//!
//! // A name typed with its marks in any order has one stored form.
//! let fan: Word = "ပန်ကာ".parse()?;
//! let pipe: Word = "ပိုက်".parse()?;
//! assert_eq!(read(&fan)?.len(), 2);
//! assert!(pipe < fan);
//!
//! let mut bytes = [0; 256];
//! let mut book = Book::new(&mut bytes);
//! book.add(&fan, 2041)?;
//! book.add(&pipe, 17)?;
//! assert_eq!(book.find(&fan)?.stock, 2041);
//! let filed: Vec<String> = book.entries()?.map(|entry| entry.to_string()).collect();
//! assert_eq!(filed, ["ပိုက်", "ပန်ကာ"]);
//! # Ok::<(), jogcairn::Refusal>(())
//! ```
//!
//! An independent vowel, and the sign ၎ (104E), may carry a final and a tone as a letter does, but
//! no medial and no vowel mark; a digit, a stop or another sign carries nothing. A plain final may
//! have a second one behind it, as in brand names such as ဘတ်စ်.
//!
//! ```
//! use jogcairn::{read, spell, write, Book, Word};
//!
//! let mut bytes = [0; 64];
//! let mut book = Book::new(&mut bytes);
//! for (name, spelled, key) in [
//!     ("ဥက္က", vec!["ဥက်", "က"], "2E0001000400-0D0000000000"),
//!     ("၎င်း", vec!["၎င်း"], "310005000002"),
//!     ("ဘတ်စ်", vec!["ဘတ်စ်"], "250011060000"),
//! ] {
//!     let word: Word = name.parse()?;
//!     assert_eq!(word.key().to_string(), key);
//!     let syllables: Vec<String> =
//!         spell(&word)?.syllables().map(|values| String::from_utf16(values).unwrap()).collect();
//!     assert_eq!(syllables, spelled);
//!     let records: Vec<u8> = read(&word)?.flat_map(|syllable| syllable.record.bytes()).collect();
//!     assert_eq!(write(&records)?, word.values());
//!     let start = book.add(&word, 61)?.start;
//!     assert_eq!(book.find(&word)?.start, start);
//! }
//! # Ok::<(), jogcairn::Refusal>(())
//! ```
//!
//! | to | call |
//! |---|---|
//! | cut a word into syllables | [`read`], [`record`], [`record_into`], [`part`] |
//! | spell the syllables out | [`spell`], [`spell_into`] |
//! | write a word from records | [`write()`], [`write_into`] |
//! | store a word in its one spelling | [`Word`], [`normalise`], [`normalise_into`] |
//! | point at the value that makes a word refused | [`stored_form`], [`typed_place`] |
//! | file words | [`Word`], [`Key`], [`key_into`], [`compare`] |
//! | tell labels that look alike | [`label`], [`skeleton`], [`skeleton_into`], [`look_alike`] |
//! | take the values of a line of UTF-8 | [`decode`], [`decode_into`] |
//! | keep a word book | [`Book`], and the functions of [`book`] for shared bytes |
//! | see an add before doing it | [`Book::preview`], [`book::preview`] |
//! | use the room of removed records again | [`Book::add`] by itself, [`Book::tidy`] |
//! | list the words of a book that continue some syllables | [`Book::entries_with_prefix`] |
//!
//! A function whose name ends in `_into` writes to the front of what the caller lends and leaves
//! the rest as it was; a refusal writes nothing.

#![forbid(unsafe_op_in_unsafe_fn)]
#![deny(unsafe_code)]
#![warn(missing_docs)]

mod answer;
pub mod book;
mod collecting;
mod comparison;
mod entries;
#[allow(unsafe_code)]
mod ffi;
mod key;
mod label;
mod line;
mod reading;
mod record;
mod refusal;
mod spelling;
mod storage;
mod text;
mod word;
mod writing;

pub use book::{Added, Book, Found, Preview, Told};
pub use comparison::{compare, ComparisonRefusal, Which};
pub use entries::{Entries, Entry, Listing};
pub use key::{key_into, Key};
pub use label::{label, look_alike, skeleton, skeleton_into};
pub use line::{decode, decode_into};
pub use reading::{part, read, record, record_into, Syllable, Syllables};
pub use record::{Link, Record};
pub use refusal::{Reason, Refusal, UnknownNumber};
pub use spelling::{spell, spell_into, Spelled, SpelledLengths};
pub use storage::{normalise, normalise_into, stored_form, stored_form_into, typed_place};
pub use word::Word;
pub use writing::{write, write_into};

/// The most code values that a word has.
pub const WORD_LIMIT: usize = 64;

/// The most bytes that a line has: three a value.
pub const LINE_LIMIT: usize = 3 * WORD_LIMIT;

/// The values of the longest spelled word.
pub const SPELLED_LIMIT: usize = 190;

/// The most syllables that a label has.
pub const LABEL_LIMIT: usize = 10;

/// The values of the longest skeleton.
pub const SKELETON_LIMIT: usize = 73;

/// The bytes of a syllable's record.
pub const RECORD_SIZE: usize = 8;

/// The weights of a syllable, a byte of a key each.
pub const WEIGHTS: usize = 6;

/// The bytes of a key, of which [`WEIGHTS`] a syllable are used.
pub const KEY_SIZE: usize = WEIGHTS * WORD_LIMIT;

/// The most bytes that a book has.
pub const BOOK_LIMIT: usize = 16_384;

/// The bytes of a book's record before its word, which takes a byte a value.
pub const BOOK_RECORD_HEAD: usize = 7;

/// The most records that a book has, none of which is without a value: room for whatever starts
/// [`book::order_into`] and [`book::find_prefix_into`] write.
pub const BOOK_RECORDS_LIMIT: usize = BOOK_LIMIT / (BOOK_RECORD_HEAD + 1);
