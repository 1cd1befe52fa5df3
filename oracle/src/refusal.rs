//! Document 01, "Refused because of what is handed in" and "Refused because of
//! what the book holds", and the refusals of document 02.

use crate::limits::{LABEL_LIMIT, WORD_LIMIT};

/// "A refusal gives number and place and writes nothing."
#[derive(Clone, Copy, Debug, PartialEq, Eq)]
pub struct Refusal {
    /// The number in the first column of the table.
    pub number: u8,
    /// The place in the last column of the table.
    pub place: usize,
}

impl Refusal {
    /// 1: more than [`WORD_LIMIT`] values, or a line over
    /// [`LINE_LIMIT`](crate::limits::LINE_LIMIT) bytes; place [`WORD_LIMIT`].
    pub const TOO_LONG: Refusal = Refusal { number: 1, place: WORD_LIMIT };

    /// 6: "records no reader yields", or over [`WORD_LIMIT`] values "when written"; place 0.
    pub const NO_SUCH_ROW: Refusal = Refusal { number: 6, place: 0 };

    /// 2: "a foreign value"; place "the first, in the word as handed in".
    pub const fn foreign(place: usize) -> Refusal {
        Refusal { number: 2, place }
    }

    /// 3: "no continuation makes the whole word into a row of syllables"; place
    /// "length of the longest beginning that some continuation makes into one".
    pub const fn not_viable(longest_beginning: usize) -> Refusal {
        Refusal { number: 3, place: longest_beginning }
    }

    /// 4: "not a row of syllables, but some continuation makes the whole word
    /// into one"; place "its length".
    pub const fn unfinished(length: usize) -> Refusal {
        Refusal { number: 4, place: length }
    }

    /// 5: "lent output too short"; place "values or bytes needed".
    pub const fn output_too_short(needed: usize) -> Refusal {
        Refusal { number: 5, place: needed }
    }

    /// 7: some three of a line is faulty; place "byte place where the first
    /// faulty three begins".
    pub const fn faulty_three(byte_place: usize) -> Refusal {
        Refusal { number: 7, place: byte_place }
    }

    /// 8: "empty word, book calls only"; place 0.
    pub const EMPTY_WORD: Refusal = Refusal { number: 8, place: 0 };

    /// 13: "find, remove: not live"; place 0.
    pub const NOT_LIVE: Refusal = Refusal { number: 13, place: 0 };

    /// 11: "not a book"; place "start of the first wrong record or first stray
    /// byte", "for an overlong buffer" [`BOOK_LIMIT`](crate::limits::BOOK_LIMIT),
    /// "of two equal words, the later".
    pub const fn not_a_book(place: usize) -> Refusal {
        Refusal { number: 11, place }
    }

    /// 12: "add: word is live already"; place "its start".
    pub const fn already_live(start: usize) -> Refusal {
        Refusal { number: 12, place: start }
    }

    /// 14: document 02, "when the live records and the new one together pass the
    /// buffer's end and at no other time"; place "the live length".
    pub const fn book_full(live_length: usize) -> Refusal {
        Refusal { number: 14, place: live_length }
    }

    /// 15: "rank not below the live count"; place "live count".
    pub const fn rank_too_high(live_count: usize) -> Refusal {
        Refusal { number: 15, place: live_count }
    }

    /// 21: document 02, "for the first stop or sign", "with its place in the normalised
    /// word".
    pub const fn stop_or_sign(place: usize) -> Refusal {
        Refusal { number: 21, place }
    }

    /// 22: document 02, "for the first such digit", a 1040 or 1047 next to a value that
    /// isn't one, "with its place in the normalised word".
    pub const fn confusable_digit(place: usize) -> Refusal {
        Refusal { number: 22, place }
    }

    /// 23: document 02, "for too many syllables"; place "the limit", [`LABEL_LIMIT`].
    pub const TOO_MANY_SYLLABLES: Refusal = Refusal { number: 23, place: LABEL_LIMIT };
}
