//! The words that the scope document and the later requests name, and the order of the tests.

mod answers;

use answers::{found, put_at, refused, weights};
use jogcairn::{
    book, compare, decode, key_into, normalise, part, read, record_into, spell_into, stored_form,
    typed_place, write, Book, Reason, Refusal, Told, Which, Word, BOOK_LIMIT, KEY_SIZE,
    RECORD_SIZE, WORD_LIMIT,
};
use std::cmp::Ordering;

#[test]
fn the_words_to_try_are_weighed_as_the_document_says() {
    assert_eq!(read(&[]).unwrap().len(), 0);
    assert_eq!(weights(&[0x1000]), [[13, 0, 0, 0, 0, 0]]);
    assert_eq!(
        weights(&[0x101E, 0x1019, 0x102E, 0x1038]),
        [[43, 0, 0, 0, 0, 0], [38, 0, 0, 0, 3, 2]]
    );
    assert_eq!(
        weights(&[0x1010, 0x1000, 0x1039, 0x1000, 0x101E, 0x102D, 0x102F, 0x101C, 0x103A]),
        [[29, 0, 1, 0, 0, 0], [13, 0, 0, 0, 0, 0], [43, 0, 29, 0, 11, 0]]
    );
    assert_eq!(
        weights(&[0x1021, 0x1004, 0x103A, 0x1039, 0x1002, 0x101C, 0x1014, 0x103A]),
        [[46, 0, 5, 0, 0, 0], [15, 0, 0, 0, 0, 0], [41, 0, 21, 0, 0, 0]]
    );
    assert_eq!(read(&[0x1000; WORD_LIMIT]).unwrap().len(), WORD_LIMIT);
}

#[test]
fn the_words_to_try_are_refused_as_the_document_says() {
    assert_eq!(refused(read(&[0x1000, 0x1039])), (3, 1));
    assert_eq!(refused(read(&[0x1000, 0x1000, 0x1039])), (4, 3));
    assert_eq!(refused(read(&[0x1000, 0x1004, 0x1039, 0x1000])), (3, 2));
    assert_eq!(refused(read(&[0x103F])), (3, 0));
    assert_eq!(refused(read(&[0x1000, 0x103B, 0x103C])), (3, 2));
    assert_eq!(refused(read(&[0x1000, 0x102C, 0x103A])), (3, 2));
    assert_eq!(read(&[0x1000, 0x1031, 0x102C, 0x103A]).unwrap().len(), 1);
    assert_eq!(refused(read(&[0x1000; WORD_LIMIT + 1])), (1, WORD_LIMIT));
}

#[test]
fn words_are_stored_as_the_document_says() {
    let stored = [0x1000, 0x1014, 0x103A, 0x1037];
    assert_eq!(normalise(&[0x1000, 0x1014, 0x1037, 0x103A]).unwrap(), stored);
    assert_eq!(normalise(&[0x1025, 0x102E]).unwrap(), [0x1026]);
}

#[test]
fn the_parts_joined_give_the_word_and_the_records_written_too() {
    for text in
        ["တက္ကသိုလ်", "အင်္ဂလန်", "ပြဿနာ", "သမီး", "၂၀၁၁", "ကမ္ဘောဒီးယား", "ဥက္က", "၎င်း", "ဣဿ", "ဘတ်စ်", ""]
    {
        let word: Word = text.parse().unwrap();
        assert_eq!(word.to_string(), text);
        let syllables = read(&word).unwrap();
        let parts: Vec<u16> = syllables.clone().flat_map(|found| found.part).copied().collect();
        assert_eq!(parts, word.values());
        let records: Vec<u8> = syllables.flat_map(|found| found.record.bytes()).collect();
        assert_eq!(write(&records).unwrap(), word.values());
    }
}

#[test]
fn syllables_are_an_exact_double_ended_iterator() {
    let word = [0x1000, 0x1000, 0x103A, 0x1040, 0x1019, 0x102E];
    let mut syllables = read(&word).unwrap();
    assert_eq!(syllables.len(), 3);
    assert_eq!(syllables.next_back().unwrap().part, &word[4..]);
    assert_eq!(syllables.len(), 2);
    assert_eq!(syllables.nth(1).unwrap().part, &word[3..4]);
    assert_eq!(syllables.len(), 0);
    assert!(syllables.next().is_none() && syllables.next_back().is_none());
}

#[test]
fn the_part_lies_in_the_word_itself() {
    let word = [0x1000, 0x1000, 0x103A, 0x1040];
    let found = part(&word, 1).unwrap().unwrap();
    assert_eq!(found.as_ptr(), word[3..].as_ptr());
    assert_eq!(part(&word, usize::MAX).unwrap(), None);
}

#[test]
fn an_empty_slice_is_lent_like_any_other() {
    assert_eq!(spell_into(&[], &mut [], &mut []).unwrap().values, 0);
    assert_eq!(refused(spell_into(&[0x1000], &mut [], &mut [])), (5, 1));
    assert_eq!(refused(spell_into(&[0x1000], &mut [0], &mut [])), (5, 1));
    assert_eq!(record_into(&[], 0, &mut []), Ok(None));
    assert_eq!(refused(record_into(&[0x1000], 0, &mut [])), (5, RECORD_SIZE));
    assert_eq!(write(&[]).unwrap(), []);
    assert_eq!(decode(&[]).unwrap(), []);
    assert_eq!(refused(key_into(&[], &mut [])), (5, KEY_SIZE));
    assert_eq!(compare(&[], &[]).unwrap(), Ordering::Equal);
    assert_eq!(refused(Book::new(&mut []).add(&[0x1000], 1)), (14, 0));
    assert_eq!(refused(Book::new(&mut []).rank(0)), (15, 0));
    assert_eq!(book::find_prefix_into(&[], &[0x1000], &mut []), Ok(0));
}

#[test]
fn the_tests_run_in_the_order_of_the_document() {
    let mut foreign = [0x1000; WORD_LIMIT + 1];
    foreign[0] = 0x0041;
    assert_eq!(refused(read(&foreign)), (1, WORD_LIMIT));
    assert_eq!(refused(read(&[0x1039, 0x0041])), (2, 1));
    // The word of a record is tested first, then whether there is one, then its room.
    assert_eq!(refused(record_into(&foreign, 0, &mut [])), (1, WORD_LIMIT));
    assert_eq!(refused(record_into(&[0x1039, 0x0041], 0, &mut [])), (2, 1));
    assert_eq!(refused(record_into(&[0x1000, 0x1039], 7, &mut [])), (3, 1));
    assert_eq!(refused(record_into(&[0x1000, 0x1000, 0x1039], 7, &mut [])), (4, 3));
    assert_eq!(record_into(&[0x1000], 1, &mut []), Ok(None));
    let mut no_book = *b"no book";
    let mut book = Book::new(&mut no_book);
    assert_eq!(refused(book.add(&[], 1)), (8, 0));
    assert_eq!(refused(book.add(&[0x1039], 1)), (3, 0));
    assert_eq!(refused(book.add(&[0x1000], 1)), (11, 0));
    assert_eq!(refused(book.find_prefix(&foreign)), (1, WORD_LIMIT));
    assert_eq!(refused(book.find_prefix(&[])), (8, 0));
    assert_eq!(refused(book.find_prefix(&[0x1039, 0x0041])), (2, 1));
    assert_eq!(refused(book.find_prefix(&[0x1000, 0x103A, 0x102C])), (3, 2));
    assert_eq!(refused(book.find_prefix(&[0x1000, 0x1000, 0x1039])), (4, 3));
    assert_eq!(refused(book::find_prefix_into(&no_book, &[0x1000], &mut [])), (11, 0));
    let both = compare(&[0x103F], &[0x0041]).unwrap_err();
    assert_eq!((both.which, both.refusal.reason), (Which::First, Reason::NoContinuation));
}

#[test]
fn a_book_is_kept_through_its_calls() {
    let mut bytes = [0; 26];
    let mut book = Book::new(&mut bytes);
    let (first, second) = ([0x1000, 0x102B], [0x1000, 0x102C]);
    assert_eq!(book.add(&second, 1), put_at(0));
    assert_eq!(book.add(&first, 2), put_at(9));
    assert_eq!(refused(book.add(&second, 3)), (12, 0));
    assert_eq!(refused(book.add(&[0x1015, 0x102B], 3)), (14, 18));
    let stocks =
        |book: &Book| book.entries().unwrap().map(|found| found.stock()).collect::<Vec<_>>();
    assert_eq!(stocks(&book), [2, 1]);
    assert_eq!(book.remove(&first), Ok(9));
    assert_eq!(refused(book.remove(&first)), (13, 0));
    assert_eq!(refused(book.rank(1)), (15, 1));
    assert_eq!(stocks(&book), [1]);
    assert_eq!(book.add(&[0x1000], 4), put_at(18));
    assert_eq!(bytes, *b"MW\x02\x01\0\0\0\x00\x2CM-\x02\x02\0\0\0\x00\x2BMW\x01\x04\0\0\0\x00");
}

#[test]
fn first_syllables_find_the_words_that_continue_them() {
    let mut bytes = [0; 256];
    let mut book = Book::new(&mut bytes);
    let names = ["တက္ကသိုလ်", "အင်္ဂလန်", "ပြဿနာ", "တက်သည်", "ပိုက်"];
    let starts: Vec<u16> = (0u32..)
        .zip(names)
        .map(|(stock, name)| book.add(&name.parse::<Word>().unwrap(), stock).unwrap().start as u16)
        .collect();
    // A plain final finds a stacked one, kinzi and great sa.
    assert_eq!(found(&book, "တက်"), [starts[0], starts[3]]);
    assert_eq!(found(&book, "အင်"), [starts[1]]);
    assert_eq!(found(&book, "ပြသ်"), [starts[2]]);
    // A word finds itself, and its marks may be typed in any order.
    assert_eq!(found(&book, "တက္ကသိုလ်"), [starts[0]]);
    assert_eq!(found(&book, "ပုိက်"), [starts[4]]);
    // What is no whole syllable of a word does not find it, and nor does a longer one.
    for text in ["တ", "အ", "ပြ", "ပိုက်ပ"] {
        assert_eq!(found(&book, text), []);
    }
    let listed = book.entries_with_prefix(&[0x1010, 0x1000, 0x103A]).unwrap();
    assert_eq!(listed.map(|entry| entry.stock()).collect::<Vec<_>>(), [0, 3]);
    book.remove(&"တက္ကသိုလ်".parse::<Word>().unwrap()).unwrap();
    assert_eq!(found(&book, "တက်"), [starts[3]]);
}

#[test]
fn words_of_equal_weights_are_both_found_and_a_short_list_is_left_alone() {
    // 1000 102C, then 1000 102B, which has the same weights and comes first by its values; then 1000.
    let book = *b"MW\x02\x01\0\0\0\x00\x2CMW\x02\x02\0\0\0\x00\x2BMW\x01\x03\0\0\0\x00";
    for query in [[0x1000, 0x102B], [0x1000, 0x102C]] {
        let mut starts = [7; 3];
        assert_eq!(refused(book::find_prefix_into(&book, &query, &mut starts[..1])), (5, 2));
        assert_eq!(starts, [7; 3]);
        assert_eq!(book::find_prefix_into(&book, &query, &mut starts), Ok(2));
        assert_eq!(starts, [9, 0, 7]);
    }
}

/// A book as long as may be with all words of one and two letters from 1000 to 1020.
fn long_book() -> Vec<u8> {
    let mut bytes = vec![0; BOOK_LIMIT];
    let mut book = Book::new(&mut bytes);
    for number in 0..33 * 34 {
        let (first, next) = (0x1000 + number % 33, 0x0FFF + number / 33);
        let word = if next < 0x1000 { vec![first] } else { vec![first, next] };
        book.add(&word, 7).unwrap();
    }
    bytes
}

#[test]
fn a_thread_with_little_stack_lists_a_long_book() {
    let listing = std::thread::Builder::new().stack_size(128 * 1024).spawn(|| {
        let mut bytes = long_book();
        let book = Book::new(&mut bytes);
        let order = book.order().unwrap();
        let last = book.rank(order.len() - 1).unwrap();
        // Each letter is a syllable, so the words that begin with 1000 are the first in word order.
        let begun = book.find_prefix(&[0x1000]).unwrap();
        assert_eq!(begun, order[..34]);
        (order.len(), book.check().unwrap(), usize::from(order[order.len() - 1]) == last.start)
    });
    let (ordered, live, same) = listing.unwrap().join().unwrap();
    assert_eq!(ordered, live);
    assert!(same && live > 1_000);
}

#[test]
fn a_refused_word_is_pointed_at_as_it_was_typed() {
    let typed = [0x1015, 0x102F, 0x102D, 0x1000, 0x1037, 0x1038, 0x103A];
    let stored = [0x1015, 0x102D, 0x102F, 0x1000, 0x103A, 0x1037, 0x1038];
    assert_eq!(refused(normalise(&typed)), (3, 6));
    assert_eq!(stored_form(&typed).unwrap(), stored);
    assert_eq!(typed_place(&typed, 6).unwrap(), Some(5));
    let places: Vec<usize> = (0..).map_while(|at| typed_place(&typed, at).unwrap()).collect();
    assert_eq!(places, [0, 2, 1, 3, 6, 4, 5]);
    assert_eq!(refused(typed_place(&[0x1000, 0x1022], 0)), (2, 1));
    assert_eq!(refused(stored_form(&[0x1000; WORD_LIMIT + 1])), (1, WORD_LIMIT));
}

#[test]
fn every_record_of_a_book_is_told_by_its_start() {
    let mut bytes = [0; 40];
    let mut book = Book::new(&mut bytes);
    book.add(&[0x1015, 0x102B], 1).unwrap();
    book.add(&[0x1000], 2).unwrap();
    book.remove(&[0x1015, 0x102B]).unwrap();
    let told: Vec<_> =
        (0..41).filter_map(|at| book.word_at(at).unwrap().map(|it| (at, it))).collect();
    let removed = (0, (vec![0x1015, 0x102B], Told { stock: 1, count: 2, live: false }));
    let live = (9, (vec![0x1000], Told { stock: 2, count: 1, live: true }));
    assert_eq!(told, [removed, live]);
    let listed: Result<Vec<_>, Refusal> = book.into_iter().collect();
    assert_eq!(listed.unwrap().iter().map(|entry| entry.start()).collect::<Vec<_>>(), [9]);
}
