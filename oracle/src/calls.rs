//! Calls on word books for comparing implementations, and what a player of calls
//! must print for them.
//!
//! A call is a few hexadecimal numbers, each but the last with a space behind it,
//! and a letter: `1000 103A 7a` adds the word 1000 103A with the stock number 7.
//! For each call on a book one line is printed: `OK` and two numbers, or `NO`,
//! refusal number and place; then a checksum of the whole array and what the call
//! left in its output. A preview is asked for as an add is, by the letter `v`; its
//! output is what it tells beside the answer of add.

mod beginnings;
mod damages;
mod fillings;
mod listings;
mod play;
mod previews;
mod ranks;
mod refusals;
mod tidyings;
mod turns;
mod words;

pub use play::{checksum, Answer, Call, Play, ARRAY_SIZE, BLANK};

/// All calls, with what must be printed for them.
pub fn all() -> Play {
    let mut play = Play::new();
    play.scene("lengths", fillings::lengths);
    play.scene("exact fits", fillings::exact_fits);
    play.scene("filled", fillings::filled);
    play.scene("filled to the limit", fillings::filled_to_the_limit);
    play.scene("many records", fillings::many_records);
    play.scene("refused words", refusals::refused_words);
    play.scene("order of tests", refusals::order_of_tests);
    play.scene("turns", turns::turns);
    play.scene("spellings", turns::spellings);
    play.scene("mark orders", turns::mark_orders);
    play.scene("stock numbers", turns::stock_numbers);
    play.scene("damaged bytes", damages::damaged_bytes);
    play.scene("made by hand", damages::made_by_hand);
    play.scene("any damage", damages::any_damage);
    play.scene("ranks", ranks::ranks);
    play.scene("deep ranks", ranks::deep_ranks);
    play.scene("listings", listings::listings);
    play.scene("rooms", listings::rooms);
    play.scene("no books", listings::no_books);
    play.scene("beginnings", beginnings::beginnings);
    play.scene("markless", beginnings::markless);
    play.scene("long beginnings", beginnings::long_beginnings);
    play.scene("refused queries", beginnings::refused_queries);
    play.scene("changed beginnings", beginnings::changed_beginnings);
    play.scene("tidied", tidyings::tidied);
    play.scene("renamings", tidyings::renamings);
    play.scene("by one byte", tidyings::by_one_byte);
    play.scene("previewed fillings", previews::fillings);
    play.scene("previewed fits", previews::fits);
    play.scene("previewed turns", previews::turns);
    play.scene("previewed limits", previews::limits);
    play.scene("previewed refusals", previews::refusals);
    play.scene("previewed damage", previews::damage);
    play
}
