//! The calls of the proved library. Nowhere else is anything unsafe.
//!
//! Each call asks for pointers that are valid for the given counts, and for outputs that overlap
//! nothing else. A slice's own pointer and length are that, an empty slice's too: its pointer is
//! dangling, but neither null nor used. The library is proved to read and write inside its counts
//! alone, to keep no pointer and to end.

use crate::answer::Answer;

unsafe extern "C" {
    fn jogcairn_read(word: *const u16, count: usize) -> u64;
    fn jogcairn_record(
        word: *const u16,
        count: usize,
        number: usize,
        record: *mut u8,
        room: usize,
    ) -> u64;
    fn jogcairn_part(word: *const u16, count: usize, number: usize) -> u64;
    fn jogcairn_spell(
        word: *const u16,
        count: usize,
        values: *mut u16,
        room: usize,
        starts: *mut u16,
        starts_room: usize,
    ) -> u64;
    fn jogcairn_write(records: *const u8, bytes: usize, word: *mut u16, room: usize) -> u64;
    fn jogcairn_normalise(word: *const u16, count: usize, output: *mut u16, room: usize) -> u64;
    fn jogcairn_stored_form(word: *const u16, count: usize, output: *mut u16, room: usize) -> u64;
    fn jogcairn_typed_place(word: *const u16, count: usize, place: usize) -> u64;
    fn jogcairn_key(word: *const u16, count: usize, key: *mut u8, room: usize) -> u64;
    fn jogcairn_compare(a: *const u16, a_count: usize, b: *const u16, b_count: usize) -> u64;
    fn jogcairn_label(word: *const u16, count: usize) -> u64;
    fn jogcairn_skeleton(word: *const u16, count: usize, skeleton: *mut u16, room: usize) -> u64;
    fn jogcairn_look_alike(a: *const u16, a_count: usize, b: *const u16, b_count: usize) -> u64;
    fn jogcairn_decode(line: *const u8, bytes: usize, word: *mut u16, room: usize) -> u64;
    fn jogcairn_book_check(book: *const u8, bytes: usize) -> u64;
    fn jogcairn_book_add(
        book: *mut u8,
        bytes: usize,
        word: *const u16,
        count: usize,
        stock: u32,
    ) -> u64;
    fn jogcairn_book_preview(
        book: *const u8,
        bytes: usize,
        word: *const u16,
        count: usize,
        stock: u32,
    ) -> u64;
    fn jogcairn_book_remove(book: *mut u8, bytes: usize, word: *const u16, count: usize) -> u64;
    fn jogcairn_book_tidy(book: *mut u8, bytes: usize) -> u64;
    fn jogcairn_book_find(book: *const u8, bytes: usize, word: *const u16, count: usize) -> u64;
    fn jogcairn_book_find_prefix(
        book: *const u8,
        bytes: usize,
        query: *const u16,
        count: usize,
        starts: *mut u16,
        room: usize,
    ) -> u64;
    fn jogcairn_book_rank(book: *const u8, bytes: usize, rank: usize) -> u64;
    fn jogcairn_book_order(book: *const u8, bytes: usize, starts: *mut u16, room: usize) -> u64;
    fn jogcairn_book_word(
        book: *const u8,
        bytes: usize,
        start: usize,
        word: *mut u16,
        room: usize,
    ) -> u64;
}

pub(crate) fn read(word: &[u16]) -> Answer {
    // SAFETY: the pointer and the count are those of a slice.
    Answer::new(unsafe { jogcairn_read(word.as_ptr(), word.len()) })
}

pub(crate) fn record(word: &[u16], number: usize, record: &mut [u8]) -> Answer {
    let (record_at, room) = (record.as_mut_ptr(), record.len());
    // SAFETY: the pointers and counts are those of slices, of which the output is borrowed mutably
    // and so does not overlap the input; every number is allowed.
    Answer::new(unsafe { jogcairn_record(word.as_ptr(), word.len(), number, record_at, room) })
}

pub(crate) fn part(word: &[u16], number: usize) -> Answer {
    // SAFETY: the pointer and the count are those of a slice; every number is allowed.
    Answer::new(unsafe { jogcairn_part(word.as_ptr(), word.len(), number) })
}

pub(crate) fn spell(word: &[u16], values: &mut [u16], starts: &mut [u16]) -> Answer {
    let (values_at, room) = (values.as_mut_ptr(), values.len());
    let (starts_at, starts_room) = (starts.as_mut_ptr(), starts.len());
    // SAFETY: the pointers and counts are those of slices, of which the two outputs are borrowed
    // mutably and so overlap nothing.
    Answer::new(unsafe {
        jogcairn_spell(word.as_ptr(), word.len(), values_at, room, starts_at, starts_room)
    })
}

pub(crate) fn write(records: &[u8], word: &mut [u16]) -> Answer {
    let (word_at, room) = (word.as_mut_ptr(), word.len());
    // SAFETY: the pointers and counts are those of slices, of which the output is borrowed mutably
    // and so does not overlap the input.
    Answer::new(unsafe { jogcairn_write(records.as_ptr(), records.len(), word_at, room) })
}

pub(crate) fn normalise(word: &[u16], output: &mut [u16]) -> Answer {
    let (output_at, room) = (output.as_mut_ptr(), output.len());
    // SAFETY: the pointers and counts are those of slices, of which the output is borrowed mutably
    // and so does not overlap the input.
    Answer::new(unsafe { jogcairn_normalise(word.as_ptr(), word.len(), output_at, room) })
}

pub(crate) fn stored_form(word: &[u16], output: &mut [u16]) -> Answer {
    let (output_at, room) = (output.as_mut_ptr(), output.len());
    // SAFETY: the pointers and counts are those of slices, of which the output is borrowed mutably
    // and so does not overlap the input.
    Answer::new(unsafe { jogcairn_stored_form(word.as_ptr(), word.len(), output_at, room) })
}

pub(crate) fn typed_place(word: &[u16], place: usize) -> Answer {
    // SAFETY: the pointer and the count are those of a slice; every place is allowed.
    Answer::new(unsafe { jogcairn_typed_place(word.as_ptr(), word.len(), place) })
}

pub(crate) fn key(word: &[u16], key: &mut [u8]) -> Answer {
    let (key_at, room) = (key.as_mut_ptr(), key.len());
    // SAFETY: the pointers and counts are those of slices, of which the output is borrowed mutably
    // and so does not overlap the input.
    Answer::new(unsafe { jogcairn_key(word.as_ptr(), word.len(), key_at, room) })
}

pub(crate) fn compare(first: &[u16], second: &[u16]) -> Answer {
    // SAFETY: the pointers and counts are those of slices; both are only read, so that they may
    // overlap.
    Answer::new(unsafe {
        jogcairn_compare(first.as_ptr(), first.len(), second.as_ptr(), second.len())
    })
}

pub(crate) fn label(word: &[u16]) -> Answer {
    // SAFETY: the pointer and the count are those of a slice.
    Answer::new(unsafe { jogcairn_label(word.as_ptr(), word.len()) })
}

pub(crate) fn skeleton(word: &[u16], skeleton: &mut [u16]) -> Answer {
    let (skeleton_at, room) = (skeleton.as_mut_ptr(), skeleton.len());
    // SAFETY: the pointers and counts are those of slices, of which the output is borrowed mutably
    // and so does not overlap the input.
    Answer::new(unsafe { jogcairn_skeleton(word.as_ptr(), word.len(), skeleton_at, room) })
}

pub(crate) fn look_alike(first: &[u16], second: &[u16]) -> Answer {
    // SAFETY: the pointers and counts are those of slices; both are only read, so that they may
    // overlap.
    Answer::new(unsafe {
        jogcairn_look_alike(first.as_ptr(), first.len(), second.as_ptr(), second.len())
    })
}

pub(crate) fn decode(line: &[u8], word: &mut [u16]) -> Answer {
    let (word_at, room) = (word.as_mut_ptr(), word.len());
    // SAFETY: the pointers and counts are those of slices, of which the output is borrowed mutably
    // and so does not overlap the input.
    Answer::new(unsafe { jogcairn_decode(line.as_ptr(), line.len(), word_at, room) })
}

pub(crate) fn book_check(book: &[u8]) -> Answer {
    // SAFETY: the pointer and the count are those of a slice.
    Answer::new(unsafe { jogcairn_book_check(book.as_ptr(), book.len()) })
}

pub(crate) fn book_add(book: &mut [u8], word: &[u16], stock: u32) -> Answer {
    let (book_at, bytes) = (book.as_mut_ptr(), book.len());
    // SAFETY: the pointers and counts are those of slices, of which the book is borrowed mutably
    // and so does not overlap the word; every stock number is allowed.
    Answer::new(unsafe { jogcairn_book_add(book_at, bytes, word.as_ptr(), word.len(), stock) })
}

pub(crate) fn book_preview(book: &[u8], word: &[u16], stock: u32) -> Answer {
    let (book_at, bytes) = (book.as_ptr(), book.len());
    // SAFETY: the pointers and counts are those of slices, both only read; every stock number is
    // allowed.
    Answer::new(unsafe { jogcairn_book_preview(book_at, bytes, word.as_ptr(), word.len(), stock) })
}

pub(crate) fn book_remove(book: &mut [u8], word: &[u16]) -> Answer {
    let (book_at, bytes) = (book.as_mut_ptr(), book.len());
    // SAFETY: the pointers and counts are those of slices, of which the book is borrowed mutably
    // and so does not overlap the word.
    Answer::new(unsafe { jogcairn_book_remove(book_at, bytes, word.as_ptr(), word.len()) })
}

pub(crate) fn book_tidy(book: &mut [u8]) -> Answer {
    // SAFETY: the pointer and the count are those of a slice, which is borrowed mutably.
    Answer::new(unsafe { jogcairn_book_tidy(book.as_mut_ptr(), book.len()) })
}

pub(crate) fn book_find(book: &[u8], word: &[u16]) -> Answer {
    // SAFETY: the pointers and counts are those of slices, both only read.
    Answer::new(unsafe { jogcairn_book_find(book.as_ptr(), book.len(), word.as_ptr(), word.len()) })
}

pub(crate) fn book_find_prefix(book: &[u8], query: &[u16], starts: &mut [u16]) -> Answer {
    let (book_at, bytes) = (book.as_ptr(), book.len());
    let (starts_at, room) = (starts.as_mut_ptr(), starts.len());
    // SAFETY: the pointers and counts are those of slices, of which the output is borrowed mutably
    // and so overlaps neither the book nor the query.
    Answer::new(unsafe {
        jogcairn_book_find_prefix(book_at, bytes, query.as_ptr(), query.len(), starts_at, room)
    })
}

pub(crate) fn book_rank(book: &[u8], rank: usize) -> Answer {
    // SAFETY: the pointer and the count are those of a slice; every rank is allowed.
    Answer::new(unsafe { jogcairn_book_rank(book.as_ptr(), book.len(), rank) })
}

pub(crate) fn book_order(book: &[u8], starts: &mut [u16]) -> Answer {
    let (starts_at, room) = (starts.as_mut_ptr(), starts.len());
    // SAFETY: the pointers and counts are those of slices, of which the output is borrowed mutably
    // and so does not overlap the book.
    Answer::new(unsafe { jogcairn_book_order(book.as_ptr(), book.len(), starts_at, room) })
}

pub(crate) fn book_word(book: &[u8], start: usize, word: &mut [u16]) -> Answer {
    let (word_at, room) = (word.as_mut_ptr(), word.len());
    // SAFETY: the pointers and counts are those of slices, of which the output is borrowed mutably
    // and so does not overlap the book; every start is allowed.
    Answer::new(unsafe { jogcairn_book_word(book.as_ptr(), book.len(), start, word_at, room) })
}
