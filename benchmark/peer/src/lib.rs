//! C names for the other implementation, so that the benchmark calls it beside the proved library in one program. Each answers with one
//! number that depends on the whole answer, or with `REFUSED`.

use oracle::limits::{SPELLED_LIMIT, WORD_LIMIT};
use oracle::{book, collation, labels, reading, spelling, storage, writing};
use std::slice;

/// The answer to what is refused.
const REFUSED: u64 = u64::MAX;

/// # Safety
/// The pointer points to `count` values that nobody writes meanwhile.
unsafe fn part<'a, T>(first: *const T, count: usize) -> &'a [T] {
    unsafe { slice::from_raw_parts(first, count) }
}

/// # Safety
/// The pointer points to `count` values that nobody else uses meanwhile.
unsafe fn output<'a, T>(first: *mut T, count: usize) -> &'a mut [T] {
    unsafe { slice::from_raw_parts_mut(first, count) }
}

/// # Safety
/// As for [`part`].
#[no_mangle]
pub unsafe extern "C" fn peer_read(word: *const u16, count: usize) -> u64 {
    reading::read(unsafe { part(word, count) })
        .map_or(REFUSED, |reading| reading.syllables().len() as u64)
}

/// # Safety
/// As for [`part`].
#[no_mangle]
pub unsafe extern "C" fn peer_spell(word: *const u16, count: usize) -> u64 {
    let (mut values, mut starts) = ([0; SPELLED_LIMIT], [0; WORD_LIMIT]);
    let lengths = spelling::spell_out(unsafe { part(word, count) }, &mut values, &mut starts);
    let (value, start) = (values[count % SPELLED_LIMIT], starts[count % WORD_LIMIT]);
    lengths.map_or(REFUSED, |_| u64::from(value) + start as u64)
}

/// # Safety
/// As for [`part`] and [`output`].
#[no_mangle]
pub unsafe extern "C" fn peer_write(
    records: *const u8,
    bytes: usize,
    word: *mut u16,
    room: usize,
) -> u64 {
    writing::write(unsafe { part(records, bytes) }, unsafe { output(word, room) })
        .map_or(REFUSED, |count| count as u64)
}

/// # Safety
/// As for [`part`] and [`output`].
#[no_mangle]
pub unsafe extern "C" fn peer_normalise(
    word: *const u16,
    count: usize,
    form: *mut u16,
    room: usize,
) -> u64 {
    storage::normalise(unsafe { part(word, count) }, unsafe { output(form, room) })
        .map_or(REFUSED, |count| count as u64)
}

/// # Safety
/// As for [`part`] and [`output`].
#[no_mangle]
pub unsafe extern "C" fn peer_stored_form(
    word: *const u16,
    count: usize,
    form: *mut u16,
    room: usize,
) -> u64 {
    storage::stored_form(unsafe { part(word, count) }, unsafe { output(form, room) })
        .map_or(REFUSED, |count| count as u64)
}

/// # Safety
/// As for [`part`].
#[no_mangle]
pub unsafe extern "C" fn peer_typed_place(word: *const u16, count: usize, place: usize) -> u64 {
    storage::typed_place(unsafe { part(word, count) }, place)
        .map_or(REFUSED, |typed| typed.map_or(REFUSED, |typed| typed as u64))
}

/// # Safety
/// As for [`part`].
#[no_mangle]
pub unsafe extern "C" fn peer_key(word: *const u16, count: usize, at: usize) -> u64 {
    collation::key(unsafe { part(word, count) }).map_or(REFUSED, |key| u64::from(key.bytes()[at]))
}

/// # Safety
/// As for [`part`].
#[no_mangle]
pub unsafe extern "C" fn peer_compare(
    first: *const u16,
    count: usize,
    second: *const u16,
    second_count: usize,
) -> u64 {
    collation::compare(unsafe { part(first, count) }, unsafe { part(second, second_count) })
        .map_or(REFUSED, |order| (order as i8 + 1) as u64)
}

/// # Safety
/// As for [`part`].
#[no_mangle]
pub unsafe extern "C" fn peer_label(word: *const u16, count: usize) -> u64 {
    labels::label(unsafe { part(word, count) }).map_or(REFUSED, |syllables| syllables as u64)
}

/// # Safety
/// As for [`part`] and [`output`].
#[no_mangle]
pub unsafe extern "C" fn peer_skeleton(
    word: *const u16,
    count: usize,
    skeleton: *mut u16,
    room: usize,
) -> u64 {
    labels::put_skeleton(unsafe { part(word, count) }, unsafe { output(skeleton, room) })
        .map_or(REFUSED, |count| count as u64)
}

/// # Safety
/// As for [`part`].
#[no_mangle]
pub unsafe extern "C" fn peer_look_alike(
    first: *const u16,
    count: usize,
    second: *const u16,
    second_count: usize,
) -> u64 {
    labels::look_alike(unsafe { part(first, count) }, unsafe { part(second, second_count) })
        .map_or(REFUSED, u64::from)
}

/// # Safety
/// As for [`part`].
#[no_mangle]
pub unsafe extern "C" fn peer_book_check(buffer: *const u8, bytes: usize) -> u64 {
    book::check(unsafe { part(buffer, bytes) }).map_or(REFUSED, |live| live as u64)
}

/// # Safety
/// As for [`part`].
#[no_mangle]
pub unsafe extern "C" fn peer_book_find(
    buffer: *const u8,
    bytes: usize,
    word: *const u16,
    count: usize,
) -> u64 {
    book::find(unsafe { part(buffer, bytes) }, unsafe { part(word, count) })
        .map_or(REFUSED, |entry| entry.start as u64)
}

/// # Safety
/// As for [`part`].
#[no_mangle]
pub unsafe extern "C" fn peer_book_rank(buffer: *const u8, bytes: usize, rank: usize) -> u64 {
    book::rank(unsafe { part(buffer, bytes) }, rank).map_or(REFUSED, |entry| entry.start as u64)
}

/// # Safety
/// As for [`part`] and [`output`].
#[no_mangle]
pub unsafe extern "C" fn peer_book_order(
    buffer: *const u8,
    bytes: usize,
    starts: *mut u16,
    room: usize,
) -> u64 {
    book::order(unsafe { part(buffer, bytes) }, unsafe { output(starts, room) })
        .map_or(REFUSED, |live| live as u64)
}

/// # Safety
/// As for [`part`] and [`output`].
#[no_mangle]
pub unsafe extern "C" fn peer_book_find_prefix(
    buffer: *const u8,
    bytes: usize,
    query: *const u16,
    count: usize,
    starts: *mut u16,
    room: usize,
) -> u64 {
    let (buffer, query) = unsafe { (part(buffer, bytes), part(query, count)) };
    book::find_prefix(buffer, query, unsafe { output(starts, room) })
        .map_or(REFUSED, |fitting| fitting as u64)
}

/// # Safety
/// As for [`part`] and [`output`].
#[no_mangle]
pub unsafe extern "C" fn peer_book_word(
    buffer: *const u8,
    bytes: usize,
    start: usize,
    word: *mut u16,
    room: usize,
) -> u64 {
    book::word_at(unsafe { part(buffer, bytes) }, start, unsafe { output(word, room) })
        .map_or(REFUSED, |told| told.map_or(REFUSED, |told| u64::from(told.stock)))
}
