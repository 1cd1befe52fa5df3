//! Live records of a book, in word order.

use crate::refusal::Refusal;
use crate::text::write_values;
use crate::BOOK_RECORD_HEAD;
use std::fmt;
use std::iter::FusedIterator;
use std::vec;

/// A live record of a book.
///
/// ```
/// let book = *b"MW\x01\x07\x00\x00\x00\x15";
/// let entry = jogcairn::book::entries(&book)?.next().unwrap();
/// assert_eq!((entry.start(), entry.stock(), entry.to_string()), (0, 7, "ပ".to_string()));
/// # Ok::<(), jogcairn::Refusal>(())
/// ```
#[derive(Clone, Copy, Debug, PartialEq, Eq, Hash)]
pub struct Entry<'b> {
    start: usize,
    stock: u32,
    /// The code values, each minus 1000.
    letters: &'b [u8],
}

impl<'b> Entry<'b> {
    /// The entry of the record that starts at a byte of the book: after its mark of two bytes stand
    /// the count of values, the stock number in four bytes, lowest first, and the values.
    fn new(book: &'b [u8], start: usize) -> Entry<'b> {
        let (head, behind) = book[start..].split_at(BOOK_RECORD_HEAD);
        let stock = [head[3], head[4], head[5], head[6]];
        let letters = &behind[..usize::from(head[2])];
        Entry { start, stock: u32::from_le_bytes(stock), letters }
    }

    /// The byte where the record starts.
    ///
    /// ```
    /// let book = *b"M-\x01\x07\x00\x00\x00\x15MW\x01\x08\x00\x00\x00\x15";
    /// let starts: Vec<usize> = jogcairn::book::entries(&book)?.map(|entry| entry.start()).collect();
    /// assert_eq!(starts, [8]);
    /// # Ok::<(), jogcairn::Refusal>(())
    /// ```
    pub fn start(&self) -> usize {
        self.start
    }

    /// The stock number.
    ///
    /// ```
    /// let book = *b"MW\x01\x07\x01\x00\x00\x15";
    /// assert_eq!(jogcairn::book::entries(&book)?.next().unwrap().stock(), 0x0107);
    /// # Ok::<(), jogcairn::Refusal>(())
    /// ```
    pub fn stock(&self) -> u32 {
        self.stock
    }

    /// The code values of the stored word.
    ///
    /// ```
    /// let book = *b"MW\x02\x07\x00\x00\x00\x15\x2B";
    /// let entry = jogcairn::book::entries(&book)?.next().unwrap();
    /// assert!(entry.values().eq([0x1015, 0x102B]));
    /// # Ok::<(), jogcairn::Refusal>(())
    /// ```
    pub fn values(&self) -> impl ExactSizeIterator<Item = u16> + 'b {
        self.letters.iter().map(|&letter| 0x1000 + u16::from(letter))
    }
}

/// The word as text.
impl fmt::Display for Entry<'_> {
    fn fmt(&self, f: &mut fmt::Formatter<'_>) -> fmt::Result {
        write_values(self.values(), f)
    }
}

/// Live records of a book in word order: all of them, made by [`Book::entries`](crate::Book::entries)
/// and [`book::entries`](crate::book::entries), or those whose words begin with some syllables, made
/// by [`Book::entries_with_prefix`](crate::Book::entries_with_prefix) and
/// [`book::entries_with_prefix`](crate::book::entries_with_prefix).
///
/// ```
/// // ပ, အ and က as they were added, read from the word filed last to the one filed first.
/// let book = *b"MW\x01\0\0\0\0\x15MW\x01\0\0\0\0\x21MW\x01\0\0\0\0\0";
/// let entries = jogcairn::book::entries(&book)?;
/// assert_eq!(entries.len(), 3);
/// assert_eq!(entries.rev().map(|entry| entry.to_string()).collect::<String>(), "အပက");
/// # Ok::<(), jogcairn::Refusal>(())
/// ```
#[derive(Clone, Debug)]
pub struct Entries<'b> {
    book: &'b [u8],
    starts: vec::IntoIter<u16>,
}

impl<'b> Entries<'b> {
    /// The entries of the live records that start there.
    pub(crate) fn new(book: &'b [u8], starts: Vec<u16>) -> Entries<'b> {
        Entries { book, starts: starts.into_iter() }
    }

    fn entry(&self, start: u16) -> Entry<'b> {
        Entry::new(self.book, usize::from(start))
    }
}

impl<'b> Iterator for Entries<'b> {
    type Item = Entry<'b>;

    fn next(&mut self) -> Option<Entry<'b>> {
        self.starts.next().map(|start| self.entry(start))
    }

    fn size_hint(&self) -> (usize, Option<usize>) {
        self.starts.size_hint()
    }

    fn nth(&mut self, skipped: usize) -> Option<Entry<'b>> {
        self.starts.nth(skipped).map(|start| self.entry(start))
    }
}

impl DoubleEndedIterator for Entries<'_> {
    fn next_back(&mut self) -> Option<Self::Item> {
        self.starts.next_back().map(|start| self.entry(start))
    }
}

impl ExactSizeIterator for Entries<'_> {}

impl FusedIterator for Entries<'_> {}

/// The live records of a book in word order, or the refusal of bytes that are none; made by
/// iterating over a [`Book`](crate::Book).
#[derive(Clone, Debug)]
pub struct Listing<'b> {
    entries: Option<Entries<'b>>,
    refusal: Option<Refusal>,
}

impl<'b> Listing<'b> {
    /// What the entries of a book come to.
    pub(crate) fn new(entries: Result<Entries<'b>, Refusal>) -> Listing<'b> {
        match entries {
            Ok(entries) => Listing { entries: Some(entries), refusal: None },
            Err(refusal) => Listing { entries: None, refusal: Some(refusal) },
        }
    }
}

impl<'b> Iterator for Listing<'b> {
    type Item = Result<Entry<'b>, Refusal>;

    fn next(&mut self) -> Option<Result<Entry<'b>, Refusal>> {
        match &mut self.entries {
            Some(entries) => entries.next().map(Ok),
            None => self.refusal.take().map(Err),
        }
    }

    fn size_hint(&self) -> (usize, Option<usize>) {
        let left = self.entries.as_ref().map_or(0, Entries::len);
        let left = left + usize::from(self.refusal.is_some());
        (left, Some(left))
    }
}

impl ExactSizeIterator for Listing<'_> {}

impl FusedIterator for Listing<'_> {}
