//! The calls that are compared, with a row each: inputs, what is lent, shrinking, counts and what is
//! printed follow from it.

/// A call of the library, or a type of the crate `jogcairn` that several calls stand behind.
#[derive(Clone, Copy, Debug, PartialEq, Eq, PartialOrd, Ord)]
#[allow(missing_docs)]
pub enum Call {
    Read,
    Record,
    RecordBytes,
    Part,
    Syllables,
    Spell,
    Write,
    Normalise,
    StoredForm,
    TypedPlace,
    Key,
    Compare,
    WordOrder,
    Label,
    Skeleton,
    LookAlike,
    Decode,
    BookAdd,
    BookPreview,
    BookRemove,
    BookTidy,
    BookFind,
    BookFindPrefix,
    BookRank,
    BookOrder,
    BookWord,
    BookCheck,
    BookEntries,
    BookPrefixEntries,
}

/// Which generator makes the inputs of a call.
#[derive(Clone, Copy, PartialEq, Eq)]
pub enum Maker {
    /// That of words and lines.
    Words,
    /// That of labels.
    Labels,
    /// That of books.
    Books,
    /// That of previews.
    Previews,
}

/// What an output is of; its room is a number of the case.
#[derive(Clone, Copy, PartialEq, Eq)]
pub enum Output {
    /// Code values or starts.
    Values,
    /// Bytes.
    Bytes,
}

/// What is known of a call.
pub struct Row {
    /// The call.
    pub call: Call,
    /// The name that is printed.
    pub name: &'static str,
    /// The generator of its inputs.
    pub maker: Maker,
    /// How often the generator picks it, beside the others.
    pub often: usize,
    /// What the bytes of a case are, if the call takes any.
    pub bytes: Option<&'static str>,
    /// What its lists of values are, two at most: words, or a query.
    pub lists: &'static [&'static str],
    /// The outputs, which are lent last.
    pub outputs: &'static [Output],
    /// The names of the numbers, the rooms of the outputs first.
    pub numbers: &'static [&'static str],
    /// The tags that its answers can have: 0 for accepted, a refusal number, or 128 where there is
    /// nothing of the number asked for.
    pub tags: &'static [u8],
    /// What is counted apart: refusals of each of two words, and some of the accepted inputs.
    pub apart: &'static [&'static str],
}

/// The tags of what is read.
const READ: &[u8] = &[0, 1, 2, 3, 4];

/// The lists of a call that takes a word, two words, or the beginning of a word.
const WORD: &[&str] = &["word"];
const TWO_WORDS: &[&str] = &["first word", "second word"];
const QUERY: &[&str] = &["query"];

/// The row of a call that takes a word.
const ON_WORD: Row = Row {
    call: Call::Read,
    name: "",
    maker: Maker::Words,
    often: 1,
    bytes: None,
    lists: WORD,
    outputs: &[],
    numbers: &[],
    tags: READ,
    apart: &[],
};

/// The row of a call that takes a word, and an output of values for what it makes of it.
const TO_VALUES: Row = Row {
    often: 2,
    outputs: &[Output::Values],
    numbers: &["room"],
    tags: &[0, 1, 2, 3, 4, 5],
    ..ON_WORD
};

/// The row of a call that takes a book.
const ON_BOOK: Row =
    Row { maker: Maker::Books, bytes: Some("book"), lists: &[], tags: &[0, 11], ..ON_WORD };

/// The tags of what is found or removed.
const FOUND: &[u8] = &[0, 1, 2, 3, 4, 8, 11, 13];

/// The tags of what is added.
const ADDED: &[u8] = &[0, 1, 2, 3, 4, 8, 11, 12, 14];

/// All calls, in their order.
pub const ROWS: [Row; 29] = [
    Row { call: Call::Read, name: "read", often: 2, ..ON_WORD },
    Row {
        call: Call::Record,
        name: "record",
        numbers: &["number"],
        tags: &[0, 1, 2, 3, 4, 128],
        ..ON_WORD
    },
    Row {
        call: Call::RecordBytes,
        name: "record bytes",
        outputs: &[Output::Bytes],
        numbers: &["room", "number"],
        tags: &[0, 1, 2, 3, 4, 5, 128],
        ..TO_VALUES
    },
    Row {
        call: Call::Part,
        name: "part",
        numbers: &["number"],
        tags: &[0, 1, 2, 3, 4, 128],
        ..ON_WORD
    },
    Row { call: Call::Syllables, name: "syllables", ..ON_WORD },
    Row {
        call: Call::Spell,
        name: "spell",
        outputs: &[Output::Values, Output::Values],
        numbers: &["room", "room for starts"],
        ..TO_VALUES
    },
    Row {
        call: Call::Write,
        name: "write",
        bytes: Some("records"),
        lists: &[],
        tags: &[0, 5, 6],
        ..TO_VALUES
    },
    Row { call: Call::Normalise, name: "normalise", ..TO_VALUES },
    Row { call: Call::StoredForm, name: "stored form", tags: &[0, 1, 2, 5], ..TO_VALUES },
    Row {
        call: Call::TypedPlace,
        name: "typed place",
        often: 2,
        numbers: &["place"],
        tags: &[0, 1, 2, 128],
        ..ON_WORD
    },
    Row { call: Call::Key, name: "key", outputs: &[Output::Bytes], ..TO_VALUES },
    Row {
        call: Call::Compare,
        name: "compare",
        often: 2,
        lists: TWO_WORDS,
        apart: &["first", "second"],
        ..ON_WORD
    },
    Row {
        call: Call::WordOrder,
        name: "order of words",
        lists: TWO_WORDS,
        apart: &["first", "second"],
        ..ON_WORD
    },
    Row {
        call: Call::Label,
        name: "label",
        maker: Maker::Labels,
        tags: &[0, 1, 2, 3, 4, 21, 22, 23],
        ..ON_WORD
    },
    Row {
        call: Call::Skeleton,
        name: "skeleton",
        maker: Maker::Labels,
        often: 1,
        tags: &[0, 1, 2, 3, 4, 5, 21, 22, 23],
        ..TO_VALUES
    },
    Row {
        call: Call::LookAlike,
        name: "look alike",
        maker: Maker::Labels,
        lists: TWO_WORDS,
        tags: &[0, 1, 2, 3, 4, 21, 22, 23],
        apart: &["first", "second", "alike"],
        ..ON_WORD
    },
    Row {
        call: Call::Decode,
        name: "decode",
        bytes: Some("line"),
        lists: &[],
        tags: &[0, 1, 5, 7],
        ..TO_VALUES
    },
    Row {
        call: Call::BookAdd,
        name: "book add",
        often: 8,
        lists: WORD,
        numbers: &["stock"],
        tags: ADDED,
        apart: &["tidied"],
        ..ON_BOOK
    },
    Row {
        call: Call::BookPreview,
        name: "book preview",
        maker: Maker::Previews,
        lists: WORD,
        numbers: &["stock"],
        tags: ADDED,
        apart: &["tidies"],
        ..ON_BOOK
    },
    Row {
        call: Call::BookRemove,
        name: "book remove",
        often: 4,
        lists: WORD,
        tags: FOUND,
        ..ON_BOOK
    },
    Row { call: Call::BookTidy, name: "book tidy", often: 2, ..ON_BOOK },
    Row { call: Call::BookFind, name: "book find", often: 3, lists: WORD, tags: FOUND, ..ON_BOOK },
    Row {
        call: Call::BookFindPrefix,
        name: "book find prefix",
        often: 4,
        lists: QUERY,
        outputs: &[Output::Values],
        numbers: &["room"],
        tags: &[0, 1, 2, 3, 4, 5, 8, 11],
        ..ON_BOOK
    },
    Row {
        call: Call::BookRank,
        name: "book rank",
        often: 3,
        numbers: &["rank"],
        tags: &[0, 11, 15],
        ..ON_BOOK
    },
    Row {
        call: Call::BookOrder,
        name: "book order",
        outputs: &[Output::Values],
        numbers: &["room"],
        tags: &[0, 5, 11],
        ..ON_BOOK
    },
    Row {
        call: Call::BookWord,
        name: "book word",
        often: 2,
        outputs: &[Output::Values],
        numbers: &["room", "start"],
        tags: &[0, 5, 11, 128],
        ..ON_BOOK
    },
    Row { call: Call::BookCheck, name: "book check", ..ON_BOOK },
    Row { call: Call::BookEntries, name: "book entries", ..ON_BOOK },
    Row {
        call: Call::BookPrefixEntries,
        name: "book prefix entries",
        lists: QUERY,
        tags: &[0, 1, 2, 3, 4, 8, 11],
        ..ON_BOOK
    },
];

impl Call {
    /// All calls.
    pub fn all() -> impl Iterator<Item = Call> {
        ROWS.iter().map(|row| row.call)
    }

    /// The calls that a generator picks from, each as often as it is picked.
    pub fn made_by(maker: Maker) -> Vec<Call> {
        let rows = ROWS.iter().filter(|row| row.maker == maker);
        rows.flat_map(|row| std::iter::repeat_n(row.call, row.often)).collect()
    }

    /// What is known of the call.
    pub fn row(self) -> &'static Row {
        &ROWS[self as usize]
    }

    /// The name that is printed.
    pub fn name(self) -> &'static str {
        self.row().name
    }

    /// The tags that its answers can have.
    pub fn tags(self) -> &'static [u8] {
        self.row().tags
    }

    /// Whether two words are handed in, so that a refusal says which.
    pub fn takes_two_words(self) -> bool {
        self.row().lists == TWO_WORDS
    }

    /// Whether a book is handed in.
    pub fn takes_book(self) -> bool {
        self.row().bytes == Some("book")
    }

    /// What the numbers of a case are.
    pub fn number_names(self) -> &'static [&'static str] {
        self.row().numbers
    }

    /// Whether a record is added to a book, or would be.
    pub fn is_add_or_preview(self) -> bool {
        matches!(self, Call::BookAdd | Call::BookPreview)
    }

    /// Whether the call may change a book.
    pub fn changes_book(self) -> bool {
        matches!(self, Call::BookAdd | Call::BookRemove | Call::BookTidy)
    }
}

#[cfg(test)]
mod tests {
    use super::*;

    #[test]
    fn each_call_has_its_row() {
        for (place, row) in ROWS.iter().enumerate() {
            assert_eq!(row.call as usize, place, "{}", row.name);
        }
    }
}
