//! The word book: a buffer of at most [`BOOK_LIMIT`](crate::BOOK_LIMIT) bytes that gives each word a
//! stock number.
//!
//! [`Book`] keeps a book in bytes that it may change; the functions of this module look into bytes
//! that are shared. Each call tests the word first and then the whole book, and changes nothing
//! where it refuses. A buffer of zeros, and one of no bytes, is a book without records.
//!
//! A record keeps its start until the book is tidied, by [`Book::tidy`] or by a [`Book::add`] that
//! says so. Starts that were taken before are then to be asked for again. What an add would answer
//! is seen before it is done: [`preview`], and [`Book::preview`], only read the book.

use crate::answer::Answer;
use crate::collecting::collected;
use crate::entries::{Entries, Entry, Listing};
use crate::ffi;
use crate::refusal::Refusal;
use crate::{BOOK_RECORDS_LIMIT, WORD_LIMIT};

/// Where a live record starts, and its stock number.
#[derive(Clone, Copy, Debug, PartialEq, Eq, Hash)]
pub struct Found {
    /// The byte where the record starts.
    pub start: usize,
    /// The stock number.
    pub stock: u32,
}

/// Where the new record of an add starts, and whether the book was tidied for it.
#[derive(Clone, Copy, Debug, PartialEq, Eq, Hash)]
pub struct Added {
    /// The byte where the record starts.
    pub start: usize,
    /// Whether the book was tidied, so that starts taken before have moved.
    pub tidied: bool,
}

/// What an add would come to, seen before it is done.
///
/// ```
/// use jogcairn::{book, Book};
///
/// // ပ and က, of which the first is removed, and no room behind them.
/// let bytes = *b"M-\x01\x07\0\0\0\x15MW\x01\x08\0\0\0\0";
/// // အ fits after tidying alone, ပါ does not fit, and က is live.
/// let previews: [(&[u16], usize, bool); 3] =
///     [(&[0x1021], 8, true), (&[0x1015, 0x102B], 0, false), (&[0x1000], 0, false)];
/// for (word, start, tidies) in previews {
///     let preview = book::preview(&bytes, word, 9);
///     assert_eq!((preview.start, preview.tidies), (start, tidies));
///     // An add on a copy of the book gives the same answer.
///     let mut copy = bytes;
///     assert_eq!(Book::new(&mut copy).add(word, 9), preview.answer);
/// }
/// ```
#[derive(Clone, Copy, Debug, PartialEq, Eq, Hash)]
pub struct Preview {
    /// The answer that [`Book::add`] gives on a copy of the book, refusal and place included.
    pub answer: Result<Added, Refusal>,
    /// The byte where the record would start, after tidying where the add would tidy; 0 where the
    /// add is refused.
    pub start: usize,
    /// Whether the add would tidy the book; it would not where it is refused.
    pub tidies: bool,
}

/// What is told of a record that is asked for by its start.
#[derive(Clone, Copy, Debug, PartialEq, Eq, Hash)]
pub struct Told {
    /// The stock number.
    pub stock: u32,
    /// How many values the word has.
    pub count: usize,
    /// Whether the record is live; a removed one keeps its word and its stock number.
    pub live: bool,
}

/// Tells whether the bytes are a book, and gives the number of live records.
///
/// ```
/// assert_eq!(jogcairn::book::check(&[0; 40])?, 0);
/// assert_eq!(jogcairn::book::check(&[0, 0, 7]).unwrap_err().place, 2);
/// # Ok::<(), jogcairn::Refusal>(())
/// ```
pub fn check(book: &[u8]) -> Result<usize, Refusal> {
    ffi::book_check(book).one()
}

/// What an add answers, be it done or seen before.
fn added(answer: Answer) -> Result<Added, Refusal> {
    let (start, tidied) = answer.one_and_whether()?;
    Ok(Added { start, tidied })
}

/// What [`Book::add`] would answer on a copy of the book, with the byte where the record would start
/// and whether the book would be tidied for it. The book is only read.
///
/// ```
/// use jogcairn::{book, Reason};
///
/// let bytes = *b"MW\x01\x07\0\0\0\x15\0\0\0\0\0\0\0\0";
/// // The record of one value has eight bytes and fits, that of two does not.
/// assert_eq!(book::preview(&bytes, &[0x1000], 8).start, 8);
/// let full = book::preview(&bytes, &[0x1015, 0x102B], 8);
/// assert_eq!((full.start, full.tidies), (0, false));
/// let refusal = full.answer.unwrap_err();
/// assert_eq!((refusal.reason, refusal.place), (Reason::BookFull, 8));
/// ```
pub fn preview(book: &[u8], word: &[u16], stock: u32) -> Preview {
    let answer = added(ffi::book_preview(book, word, stock));
    let (start, tidies) = answer.map_or((0, false), |added| (added.start, added.tidied));
    Preview { answer, start, tidies }
}

/// The live record with the word, which is normalised first.
///
/// ```
/// let book = *b"MW\x01\x07\x00\x00\x00\x15";
/// assert_eq!(jogcairn::book::find(&book, &[0x1015])?.stock, 7);
/// assert_eq!(jogcairn::book::find(&book, &[0x1000]).unwrap_err().number(), 13);
/// # Ok::<(), jogcairn::Refusal>(())
/// ```
pub fn find(book: &[u8], word: &[u16]) -> Result<Found, Refusal> {
    let (stock, start) = ffi::book_find(book, word).two()?;
    Ok(Found { start, stock })
}

/// The live record with so many live records before it in word order.
///
/// ```
/// // ပ with stock number 7, then က with 8; က is filed first.
/// let book = *b"MW\x01\x07\x00\x00\x00\x15MW\x01\x08\x00\x00\x00\x00";
/// let first = jogcairn::book::rank(&book, 0)?;
/// assert_eq!((first.start, first.stock), (8, 8));
/// assert_eq!(jogcairn::book::rank(&book, 2).unwrap_err().place, 2);
/// # Ok::<(), jogcairn::Refusal>(())
/// ```
pub fn rank(book: &[u8], rank: usize) -> Result<Found, Refusal> {
    let (stock, start) = ffi::book_rank(book, rank).two()?;
    Ok(Found { start, stock })
}

/// Writes the starts of all live records, in word order, to the front of `starts`, and gives their
/// number.
///
/// ```
/// // ပ, then က, which is filed first.
/// let book = *b"MW\x01\x07\x00\x00\x00\x15MW\x01\x08\x00\x00\x00\x00";
/// let mut starts = [7; 3];
/// assert_eq!(jogcairn::book::order_into(&book, &mut starts)?, 2);
/// assert_eq!(starts, [8, 0, 7]);
/// assert_eq!(jogcairn::book::order_into(&book, &mut []).unwrap_err().place, 2);
/// # Ok::<(), jogcairn::Refusal>(())
/// ```
pub fn order_into(book: &[u8], starts: &mut [u16]) -> Result<usize, Refusal> {
    ffi::book_order(book, starts).one()
}

/// The starts of all live records in word order.
///
/// ```
/// let book = *b"MW\x01\x07\x00\x00\x00\x15MW\x01\x08\x00\x00\x00\x00";
/// assert_eq!(jogcairn::book::order(&book)?, [8, 0]);
/// # Ok::<(), jogcairn::Refusal>(())
/// ```
pub fn order(book: &[u8]) -> Result<Vec<u16>, Refusal> {
    collected::<BOOK_RECORDS_LIMIT>(|starts| order_into(book, starts))
}

/// Writes the starts of all live records whose words begin with the syllables of the query, in
/// word order, to the front of `starts`, and gives their number; where there are none, that is 0.
///
/// The query is normalised first, and syllables are compared by their weights: a word begins with
/// itself, and a plain final finds a stacked one, kinzi and great sa too. Only whole syllables are
/// found: က does not find ကာ.
///
/// ```
/// use jogcairn::{book, Book, Word};
///
/// let mut bytes = [0; 256];
/// let mut shelf = Book::new(&mut bytes);
/// for name in ["တက်သည်", "တက္ကသိုလ်", "တ"] {
///     shelf.add(&name.parse::<Word>()?, 1)?;
/// }
/// let first: Word = "တက်".parse()?;
/// let mut starts = [7; 3];
/// assert_eq!(book::find_prefix_into(&bytes, &first, &mut starts)?, 2);
/// assert_eq!(starts, [13, 0, 7]);
/// // Where the list is too short, the place is the number of records that fit.
/// assert_eq!(book::find_prefix_into(&bytes, &first, &mut [7]).unwrap_err().place, 2);
/// # Ok::<(), jogcairn::Refusal>(())
/// ```
pub fn find_prefix_into(book: &[u8], query: &[u16], starts: &mut [u16]) -> Result<usize, Refusal> {
    ffi::book_find_prefix(book, query, starts).one()
}

/// The starts of all live records whose words begin with the syllables of the query, in word order;
/// [`find_prefix_into`] says what begins with what.
///
/// ```
/// // တက်, then တ; the letter alone does not find the syllable that it begins.
/// let book = *b"MW\x03\x07\x00\x00\x00\x10\x00\x3AMW\x01\x08\x00\x00\x00\x10";
/// assert_eq!(jogcairn::book::find_prefix(&book, &[0x1010])?, [10]);
/// assert_eq!(jogcairn::book::find_prefix(&book, &[0x1000])?, []);
/// assert_eq!(jogcairn::book::find_prefix(&book, &[]).unwrap_err().number(), 8);
/// # Ok::<(), jogcairn::Refusal>(())
/// ```
pub fn find_prefix(book: &[u8], query: &[u16]) -> Result<Vec<u16>, Refusal> {
    collected::<BOOK_RECORDS_LIMIT>(|starts| find_prefix_into(book, query, starts))
}

/// Writes the word of the record that starts at a byte to the front of `output`, be it live or
/// removed; `None` where no record starts there.
///
/// ```
/// let book = *b"M-\x02\x07\x00\x00\x00\x15\x2BMW\x01\x08\x00\x00\x00\x00";
/// let mut word = [0; 3];
/// let told = jogcairn::book::word_into(&book, 0, &mut word)?.unwrap();
/// assert_eq!((told.stock, told.live, &word[..told.count]), (7, false, &[0x1015, 0x102B][..]));
/// assert_eq!(jogcairn::book::word_into(&book, 8, &mut word)?, None);
/// # Ok::<(), jogcairn::Refusal>(())
/// ```
pub fn word_into(book: &[u8], start: usize, output: &mut [u16]) -> Result<Option<Told>, Refusal> {
    let told = ffi::book_word(book, start, output).two_or_none()?;
    Ok(told.map(|(stock, second)| Told { stock, count: second % 0x100, live: second >= 0x100 }))
}

/// The word of the record that starts at a byte, be it live or removed, with what is told of it;
/// `None` where no record starts there.
///
/// ```
/// let book = *b"MW\x01\x08\x00\x00\x00\x15";
/// let (word, told) = jogcairn::book::word_at(&book, 0)?.unwrap();
/// assert_eq!((word, told.stock, told.live), (vec![0x1015], 8, true));
/// # Ok::<(), jogcairn::Refusal>(())
/// ```
pub fn word_at(book: &[u8], start: usize) -> Result<Option<(Vec<u16>, Told)>, Refusal> {
    let mut output = [0; WORD_LIMIT];
    let told = word_into(book, start, &mut output)?;
    Ok(told.map(|told| (output[..told.count].to_vec(), told)))
}

/// The live records in word order, which one call of the library gives.
///
/// ```
/// let book = *b"MW\x01\x07\x00\x00\x00\x15MW\x01\x08\x00\x00\x00\x00";
/// let stocks: Vec<u32> = jogcairn::book::entries(&book)?.map(|entry| entry.stock()).collect();
/// assert_eq!(stocks, [8, 7]);
/// # Ok::<(), jogcairn::Refusal>(())
/// ```
pub fn entries(book: &[u8]) -> Result<Entries<'_>, Refusal> {
    Ok(Entries::new(book, order(book)?))
}

/// The live records whose words begin with the syllables of the query, in word order, which one
/// call of the library gives; [`find_prefix_into`] says what begins with what.
///
/// ```
/// // ပတ္တာ, a hinge, is found by its first syllable, which is typed with a plain final.
/// let book = *b"MW\x05\x34\x00\x00\x00\x15\x10\x39\x10\x2C";
/// let first = jogcairn::decode("ပတ်".as_bytes())?;
/// let hinge = jogcairn::book::entries_with_prefix(&book, &first)?.next().unwrap();
/// assert_eq!((hinge.to_string(), hinge.stock()), ("ပတ္တာ".to_string(), 52));
/// # Ok::<(), jogcairn::Refusal>(())
/// ```
pub fn entries_with_prefix<'b>(book: &'b [u8], query: &[u16]) -> Result<Entries<'b>, Refusal> {
    Ok(Entries::new(book, find_prefix(book, query)?))
}

/// A word book in borrowed bytes, which are its only state.
///
/// ```
/// use jogcairn::{Book, Reason, Word};
///
/// let mut bytes = [0; 64];
/// let mut book = Book::new(&mut bytes);
/// let daughter: Word = "သမီး".parse()?;
/// let university: Word = "တက္ကသိုလ်".parse()?;
/// assert_eq!(book.add(&daughter, 31)?.start, 0);
/// assert_eq!(book.add(&university, 4_000_000_000)?.start, 11);
/// assert_eq!(book.add(&daughter, 5).unwrap_err().reason, Reason::AlreadyLive);
/// assert_eq!(book.remove(&daughter)?, 0);
/// assert_eq!(book.find(&daughter).unwrap_err().reason, Reason::NotLive);
/// assert_eq!(book.check()?, 1);
/// # Ok::<(), jogcairn::Refusal>(())
/// ```
#[derive(Debug)]
pub struct Book<'b> {
    bytes: &'b mut [u8],
}

impl<'b> Book<'b> {
    /// The book in these bytes. Whether they are one, each call tells.
    ///
    /// ```
    /// use jogcairn::Book;
    ///
    /// let mut bytes = [0x4D];
    /// assert_eq!(Book::new(&mut bytes).check().unwrap_err().number(), 11);
    /// ```
    pub fn new(bytes: &'b mut [u8]) -> Book<'b> {
        Book { bytes }
    }

    /// The bytes of the book.
    ///
    /// ```
    /// use jogcairn::Book;
    ///
    /// let mut bytes = [0; 9];
    /// let mut book = Book::new(&mut bytes);
    /// book.add(&[0x1015], 0x0102)?;
    /// assert_eq!(book.as_bytes(), b"MW\x01\x02\x01\x00\x00\x15\x00");
    /// # Ok::<(), jogcairn::Refusal>(())
    /// ```
    pub fn as_bytes(&self) -> &[u8] {
        self.bytes
    }

    /// Tells whether the bytes are a book, and gives the number of live records.
    ///
    /// ```
    /// use jogcairn::Book;
    ///
    /// assert_eq!(Book::new(&mut []).check()?, 0);
    /// # Ok::<(), jogcairn::Refusal>(())
    /// ```
    pub fn check(&self) -> Result<usize, Refusal> {
        check(self.bytes)
    }

    /// Puts a live record with the word just after the last record. Where the record would pass the
    /// end of the bytes there, but fits after [tidying](Book::tidy), the book is tidied first, and
    /// in no other case.
    ///
    /// ```
    /// use jogcairn::{Added, Book, Reason};
    ///
    /// let mut bytes = [0; 24];
    /// let mut book = Book::new(&mut bytes);
    /// book.add(&[0x1000], 1)?;
    /// book.add(&[0x1001], 2)?;
    /// book.remove(&[0x1000])?;
    /// // A record of eight bytes ends where the bytes end, so that nothing has to move.
    /// assert_eq!(book.add(&[0x1002], 3)?, Added { start: 16, tidied: false });
    /// // One of nine does not fit behind the two live ones of eight.
    /// let full = book.add(&[0x1015, 0x102B], 4).unwrap_err();
    /// assert_eq!((full.reason, full.place), (Reason::BookFull, 16));
    /// // One of eight does, in the room of the removed one: the live ones move to the front.
    /// assert_eq!(book.add(&[0x1015], 4)?, Added { start: 16, tidied: true });
    /// assert_eq!(book.find(&[0x1002])?.start, 8);
    /// # Ok::<(), jogcairn::Refusal>(())
    /// ```
    pub fn add(&mut self, word: &[u16], stock: u32) -> Result<Added, Refusal> {
        added(ffi::book_add(self.bytes, word, stock))
    }

    /// What [`Book::add`] would answer, with the byte where the record would start and whether the
    /// book would be tidied for it. The book is only read, so that a clerk sees an add before doing
    /// it.
    ///
    /// ```
    /// use jogcairn::{Book, Reason};
    ///
    /// let mut bytes = [0; 24];
    /// let mut book = Book::new(&mut bytes);
    /// book.add(&[0x1000], 1)?;
    /// book.add(&[0x1001], 2)?;
    /// book.remove(&[0x1000])?;
    /// // A record of eight bytes fits behind the last one.
    /// let fits = book.preview(&[0x1002], 3);
    /// assert_eq!((fits.start, fits.tidies), (16, false));
    /// // One of nine fits after tidying alone, behind the eight bytes of the live one.
    /// let moves = book.preview(&[0x1015, 0x102B], 3);
    /// assert_eq!((moves.start, moves.tidies), (8, true));
    /// // One of 17 does not fit.
    /// let full = book.preview(&[0x1000; 10], 3);
    /// assert_eq!((full.start, full.tidies), (0, false));
    /// assert_eq!(full.answer.unwrap_err().reason, Reason::BookFull);
    /// // A word that is live is refused, with the start of its record as the place.
    /// let live = book.preview(&[0x1001], 3);
    /// assert_eq!((live.start, live.answer.unwrap_err().place), (0, 8));
    /// // Nothing was changed, and the add answers what was seen.
    /// assert_eq!(book.add(&[0x1015, 0x102B], 3), moves.answer);
    /// assert_eq!(book.find(&[0x1015, 0x102B])?.start, moves.start);
    /// # Ok::<(), jogcairn::Refusal>(())
    /// ```
    pub fn preview(&self, word: &[u16], stock: u32) -> Preview {
        preview(self.bytes, word, stock)
    }

    /// Marks the live record with the word as removed, and gives its start. Its room is used again
    /// through tidying alone.
    ///
    /// ```
    /// use jogcairn::Book;
    ///
    /// let mut bytes = *b"MW\x01\x07\x00\x00\x00\x15";
    /// assert_eq!(Book::new(&mut bytes).remove(&[0x1015])?, 0);
    /// assert_eq!(&bytes, b"M-\x01\x07\x00\x00\x00\x15");
    /// # Ok::<(), jogcairn::Refusal>(())
    /// ```
    pub fn remove(&mut self, word: &[u16]) -> Result<usize, Refusal> {
        ffi::book_remove(self.bytes, word).one()
    }

    /// Moves the live records to the front, in the order of their starts, closes the gaps of the
    /// removed ones, and fills the rest with zeros. Gives the live length, the sum of the live
    /// records' bytes. Words keep their stock numbers and their ranks, but not their starts.
    ///
    /// ```
    /// use jogcairn::Book;
    ///
    /// let mut bytes = *b"M-\x01\x07\0\0\0\x15MW\x01\x08\0\0\0\x15";
    /// assert_eq!(Book::new(&mut bytes).tidy()?, 8);
    /// assert_eq!(&bytes, b"MW\x01\x08\0\0\0\x15\0\0\0\0\0\0\0\0");
    /// // Nothing is left to tidy.
    /// assert_eq!(Book::new(&mut bytes).tidy()?, 8);
    /// assert_eq!(&bytes, b"MW\x01\x08\0\0\0\x15\0\0\0\0\0\0\0\0");
    /// # Ok::<(), jogcairn::Refusal>(())
    /// ```
    pub fn tidy(&mut self) -> Result<usize, Refusal> {
        ffi::book_tidy(self.bytes).one()
    }

    /// The live record with the word.
    ///
    /// ```
    /// use jogcairn::{Book, Found};
    ///
    /// let mut bytes = [0; 20];
    /// let mut book = Book::new(&mut bytes);
    /// book.add(&[0x1025, 0x102E], 9)?;
    /// assert_eq!(book.find(&[0x1026])?, Found { start: 0, stock: 9 });
    /// # Ok::<(), jogcairn::Refusal>(())
    /// ```
    pub fn find(&self, word: &[u16]) -> Result<Found, Refusal> {
        find(self.bytes, word)
    }

    /// The starts of all live records whose words begin with the syllables of the query, in word
    /// order; [`find_prefix_into`] says what begins with what.
    ///
    /// ```
    /// use jogcairn::{Book, Word};
    ///
    /// let mut bytes = [0; 64];
    /// let mut book = Book::new(&mut bytes);
    /// book.add(&"ပြဿနာ".parse::<Word>()?, 1)?;
    /// book.add(&"ပြ".parse::<Word>()?, 2)?;
    /// // Great sa closes the first syllable, which is spelled ပြသ်.
    /// assert_eq!(book.find_prefix(&"ပြသ်".parse::<Word>()?)?, [0]);
    /// assert_eq!(book.find_prefix(&"ပြ".parse::<Word>()?)?, [12]);
    /// # Ok::<(), jogcairn::Refusal>(())
    /// ```
    pub fn find_prefix(&self, query: &[u16]) -> Result<Vec<u16>, Refusal> {
        find_prefix(self.bytes, query)
    }

    /// The live record with so many live records before it in word order.
    ///
    /// ```
    /// use jogcairn::{Book, Found};
    ///
    /// let mut bytes = [0; 20];
    /// let mut book = Book::new(&mut bytes);
    /// book.add(&[0x1015], 1)?;
    /// book.add(&[0x1000], 2)?;
    /// assert_eq!(book.rank(0)?, Found { start: 8, stock: 2 });
    /// # Ok::<(), jogcairn::Refusal>(())
    /// ```
    pub fn rank(&self, rank: usize) -> Result<Found, Refusal> {
        self::rank(self.bytes, rank)
    }

    /// The starts of all live records in word order.
    ///
    /// ```
    /// use jogcairn::Book;
    ///
    /// let mut bytes = [0; 20];
    /// let mut book = Book::new(&mut bytes);
    /// book.add(&[0x1015], 1)?;
    /// book.add(&[0x1000], 2)?;
    /// assert_eq!(book.order()?, [8, 0]);
    /// # Ok::<(), jogcairn::Refusal>(())
    /// ```
    pub fn order(&self) -> Result<Vec<u16>, Refusal> {
        order(self.bytes)
    }

    /// The word of the record that starts at a byte, be it live or removed; `None` where no record
    /// starts there.
    ///
    /// ```
    /// use jogcairn::Book;
    ///
    /// let mut bytes = [0; 20];
    /// let mut book = Book::new(&mut bytes);
    /// book.add(&[0x1015], 1)?;
    /// book.remove(&[0x1015])?;
    /// let (word, told) = book.word_at(0)?.unwrap();
    /// assert_eq!((word, told.stock, told.live), (vec![0x1015], 1, false));
    /// assert_eq!(book.word_at(8)?, None);
    /// # Ok::<(), jogcairn::Refusal>(())
    /// ```
    pub fn word_at(&self, start: usize) -> Result<Option<(Vec<u16>, Told)>, Refusal> {
        word_at(self.bytes, start)
    }

    /// The live records in word order.
    ///
    /// ```
    /// use jogcairn::{Book, Word};
    ///
    /// let mut bytes = [0; 256];
    /// let mut book = Book::new(&mut bytes);
    /// for (stock, name) in ["ကင်ဆာ", "ကကူရံ", "ကကတိုး"].into_iter().enumerate() {
    ///     book.add(&name.parse::<Word>()?, stock as u32)?;
    /// }
    /// let filed: Vec<String> = book.entries()?.map(|entry| entry.to_string()).collect();
    /// assert_eq!(filed, ["ကကတိုး", "ကကူရံ", "ကင်ဆာ"]);
    /// # Ok::<(), jogcairn::Refusal>(())
    /// ```
    pub fn entries(&self) -> Result<Entries<'_>, Refusal> {
        entries(self.bytes)
    }

    /// The live records whose words begin with the syllables of the query, in word order;
    /// [`find_prefix_into`] says what begins with what.
    ///
    /// ```
    /// use jogcairn::{Book, Word};
    ///
    /// let mut bytes = [0; 256];
    /// let mut book = Book::new(&mut bytes);
    /// for (stock, name) in ["တက်သည်", "ကင်ဆာ", "တက္ကသိုလ်", "တကယ်၍"].into_iter().enumerate() {
    ///     book.add(&name.parse::<Word>()?, stock as u32)?;
    /// }
    /// // The clerk typed the first syllable.
    /// let first: Word = "တက်".parse()?;
    /// let listed: Vec<String> =
    ///     book.entries_with_prefix(&first)?.map(|entry| entry.to_string()).collect();
    /// assert_eq!(listed, ["တက္ကသိုလ်", "တက်သည်"]);
    /// # Ok::<(), jogcairn::Refusal>(())
    /// ```
    pub fn entries_with_prefix(&self, query: &[u16]) -> Result<Entries<'_>, Refusal> {
        entries_with_prefix(self.bytes, query)
    }
}

/// The live records in word order; where the bytes are no book, the refusal alone.
///
/// ```
/// use jogcairn::Book;
///
/// let mut bytes = *b"MW\x01\x07\x00\x00\x00\x15MW\x01\x08\x00\x00\x00\x00";
/// let mut stocks = Vec::new();
/// for entry in &Book::new(&mut bytes) {
///     stocks.push(entry?.stock());
/// }
/// assert_eq!(stocks, [8, 7]);
/// let mut no_book = [1];
/// let listed: Vec<_> = Book::new(&mut no_book).into_iter().collect();
/// assert_eq!(listed.len(), 1);
/// assert_eq!(listed[0].unwrap_err().number(), 11);
/// # Ok::<(), jogcairn::Refusal>(())
/// ```
impl<'s> IntoIterator for &'s Book<'_> {
    type Item = Result<Entry<'s>, Refusal>;
    type IntoIter = Listing<'s>;

    fn into_iter(self) -> Listing<'s> {
        Listing::new(self.entries())
    }
}

/// The live records in word order, of bytes that the book borrowed.
impl<'b> IntoIterator for Book<'b> {
    type Item = Result<Entry<'b>, Refusal>;
    type IntoIter = Listing<'b>;

    fn into_iter(self) -> Listing<'b> {
        Listing::new(entries(self.bytes))
    }
}
