//! Document 02, "Find by the first syllables", with starts and places worked out by hand.

use oracle::book::{add, find_prefix, remove, Added};
use oracle::collation::Weights;
use oracle::limits::{BOOK_LIMIT, BOOK_RECORD_HEAD, SPELLED_LIMIT, WORD_LIMIT};
use oracle::{compare, key, read, spell_out, Refusal};

/// တက္ကသိုလ်
const UNIVERSITY: [u16; 9] =
    [0x1010, 0x1000, 0x1039, 0x1000, 0x101E, 0x102D, 0x102F, 0x101C, 0x103A];

/// အင်္ဂလန်
const ENGLAND: [u16; 8] = [0x1021, 0x1004, 0x103A, 0x1039, 0x1002, 0x101C, 0x1014, 0x103A];

/// ပြဿနာ
const PROBLEM: [u16; 5] = [0x1015, 0x103C, 0x103F, 0x1014, 0x102C];

fn refusal<T>(number: u8, place: usize) -> Result<T, Refusal> {
    Err(Refusal { number, place })
}

/// A book of these words, and where the record of each starts.
fn book_of(words: &[&[u16]]) -> (Vec<u8>, Vec<u16>) {
    let mut book = vec![0; words.iter().map(|word| BOOK_RECORD_HEAD + word.len()).sum()];
    let starts = words.iter().map(|word| add(&mut book, word, 7).unwrap().start as u16).collect();
    (book, starts)
}

/// The words that continue the query, by their numbers, in the order of the answer.
fn found(words: &[&[u16]], query: &[u16]) -> Vec<usize> {
    let (book, starts) = book_of(words);
    found_in(&book, &starts, query)
}

fn found_in(book: &[u8], starts: &[u16], query: &[u16]) -> Vec<usize> {
    let mut list = vec![0xFFFF; starts.len()];
    let count = find_prefix(book, query, &mut list).unwrap();
    assert!(list[count..].iter().all(|&rest| rest == 0xFFFF));
    let number = |start: &u16| starts.iter().position(|known| known == start).unwrap();
    list[..count].iter().map(number).collect()
}

/// "a plain final in the query thus finds a stacked one"
#[test]
fn a_plain_final_finds_a_stacked_one() {
    assert_eq!(found(&[&UNIVERSITY], &[0x1010, 0x1000, 0x103A]), [0]);
    assert_eq!(found(&[&UNIVERSITY], &[0x1010, 0x1000, 0x103A, 0x1000]), [0]);
    assert_eq!(found(&[&UNIVERSITY], &[0x1010, 0x1000, 0x1039, 0x1000]), [0]);
    let spelled = [0x1010, 0x1000, 0x103A, 0x1000, 0x101E, 0x102D, 0x102F, 0x101C, 0x103A];
    assert_eq!(found(&[&UNIVERSITY], &spelled), [0]);
    // A stacked final finds a plain one as well.
    let plain = [0x1010, 0x1000, 0x103A, 0x1000, 0x102C];
    assert_eq!(found(&[&plain], &[0x1010, 0x1000, 0x1039, 0x1000, 0x102C]), [0]);
}

/// "Final: 1000 to 1020 are 1 to 33, whichever form": kinzi and 103F too.
#[test]
fn a_plain_final_finds_kinzi_and_great_sa() {
    assert_eq!(found(&[&ENGLAND], &[0x1021, 0x1004, 0x103A]), [0]);
    assert_eq!(found(&[&ENGLAND], &[0x1021, 0x1004, 0x103A, 0x1002]), [0]);
    assert_eq!(found(&[&PROBLEM], &[0x1015, 0x103C, 0x101E, 0x103A]), [0]);
    assert_eq!(found(&[&PROBLEM], &[0x1015, 0x103C, 0x101E, 0x103A, 0x101E]), [0]);
    let words: [&[u16]; 2] = [&[0x1015, 0x103F, 0x1014, 0x102C], &[0x1015, 0x101E, 0x103A]];
    assert_eq!(found(&words, &[0x1015, 0x101E, 0x103A]), [1, 0]);
    assert_eq!(found(&words, &[0x1015, 0x103F]), [0]);
}

/// The weights of the last syllable asked for are compared whole.
#[test]
fn whole_syllables_are_found() {
    let words: [&[u16]; 5] = [
        &[0x1010, 0x1000, 0x103A],
        &[0x1010, 0x102C],
        &[0x1010, 0x1000],
        &[0x1010, 0x1037],
        &[0x1010],
    ];
    assert_eq!(found(&words, &[0x1010]), [4, 2]);
    assert_eq!(found(&[&[0x1000, 0x102D, 0x102F]], &[0x1000, 0x102D]), []);
    assert_eq!(found(&[&[0x1000, 0x103B, 0x103D]], &[0x1000, 0x103B]), []);
    assert_eq!(found(&[&UNIVERSITY], &[0x1010]), []);
    assert_eq!(found(&[&UNIVERSITY], &[0x1010, 0x1000]), []);
    // (43,0,0,0,0,0) against (43,0,29,0,11,0).
    assert_eq!(found(&[&UNIVERSITY], &[0x1010, 0x1000, 0x103A, 0x1000, 0x101E]), []);
    // A word is no continuation of a longer one.
    assert_eq!(found(&[&[0x1000], &[0x1000, 0x1001]], &[0x1000, 0x1001]), [1]);
}

/// A word finds itself, and is filed before what continues it.
#[test]
fn words_are_found_in_word_order() {
    let words: [&[u16]; 7] = [
        &[0x1000, 0x1021],
        &[0x1000, 0x1000, 0x1000],
        &[0x1001],
        &[0x1000],
        &[0x1000, 0x1000, 0x103A],
        &[0x1000, 0x104A],
        &[0x1000, 0x1000],
    ];
    assert_eq!(found(&words, &[0x1000]), [3, 5, 6, 1, 0]);
    assert_eq!(found(&words, &[0x1000, 0x1000]), [6, 1]);
    assert_eq!(found(&words, &[0x1000, 0x1000, 0x1000]), [1]);
    let (longest, shorter) = ([0x1000; WORD_LIMIT], [0x1000; WORD_LIMIT - 1]);
    assert_eq!(found(&[&longest, &shorter], &shorter), [1, 0]);
    assert_eq!(found(&[&longest, &shorter], &longest), [0]);
}

/// "equal rows compare by code values in storage order"
#[test]
fn words_of_equal_weights_find_each_other() {
    let words: [&[u16]; 2] = [&[0x1010, 0x1000, 0x103A, 0x1000], &[0x1010, 0x1000, 0x1039, 0x1000]];
    for query in [words[0], words[1], &[0x1010, 0x1000, 0x103A]] {
        assert_eq!(found(&words, query), [1, 0]);
    }
    let words: [&[u16]; 3] = [&[0x1000, 0x102C], &[0x1000, 0x102B], &[0x1000, 0x102B, 0x1000]];
    assert_eq!(found(&words, &[0x1000, 0x102C]), [1, 0, 2]);
    assert_eq!(found(&words, &[0x1000, 0x102B]), [1, 0, 2]);
    // 1023 has the head weight of 1021 and the vowel weight of 102D.
    let words: [&[u16]; 2] = [&[0x1023, 0x1000], &[0x1021, 0x102D]];
    assert_eq!(found(&words, &[0x1023]), [1, 0]);
    assert_eq!(found(&words, &[0x1021, 0x102D]), [1, 0]);
    assert_eq!(found(&words, &[0x1021]), []);
}

/// An I, and 104E, with a final as other heads have.
#[test]
fn independent_letters_are_found_by_their_finals() {
    let words: [&[u16]; 6] = [
        &[0x1025, 0x1000, 0x1039, 0x1000],
        &[0x1025, 0x1000, 0x103A],
        &[0x1021, 0x102F, 0x1000, 0x103A],
        &[0x1025],
        &[0x104E, 0x1004, 0x103A, 0x1038],
        &[0x104E],
    ];
    // 1025 has the head weight of 1021 and the vowel weight of 102F, with a final too.
    assert_eq!(found(&words, &[0x1025, 0x1000, 0x103A]), [2, 1, 0]);
    assert_eq!(found(&words, &[0x1021, 0x102F, 0x1000, 0x103A]), [2, 1, 0]);
    assert_eq!(found(&words, &[0x1025, 0x1000, 0x1039, 0x1000]), [0]);
    assert_eq!(found(&words, &[0x1025]), [3]);
    assert_eq!(found(&words, &[0x1021, 0x1000, 0x103A]), []);
    assert_eq!(found(&words, &[0x104E]), [5]);
    assert_eq!(found(&words, &[0x104E, 0x1004, 0x103A]), []);
    assert_eq!(found(&words, &[0x104E, 0x1004, 0x103A, 0x1038]), [4]);
    assert_eq!(found(&[&[0x1023, 0x103F]], &[0x1023, 0x101E, 0x103A]), [0]);
    let kinzi = [0x1023, 0x1004, 0x103A, 0x1039, 0x1002];
    assert_eq!(found(&[&kinzi], &[0x1023, 0x1004, 0x103A]), [0]);
}

/// A syllable with two finals begins as no syllable with one.
#[test]
fn two_finals_are_found_by_both() {
    let words: [&[u16]; 7] = [
        &[0x1018, 0x1010, 0x103A, 0x1005, 0x103A, 0x1000],
        &[0x1018, 0x1010, 0x103A],
        &[0x1018, 0x1010, 0x103A, 0x1005, 0x103A],
        &[0x1018, 0x1010, 0x103A, 0x1005, 0x103A, 0x1038],
        &[0x1018, 0x1010, 0x103A, 0x1005],
        &[0x1021, 0x102D, 0x1010, 0x103A, 0x1005, 0x103A],
        &[0x1023, 0x1010, 0x103A, 0x1005, 0x103A, 0x1000],
    ];
    assert_eq!(found(&words, &[0x1018, 0x1010, 0x103A, 0x1005, 0x103A]), [2, 0]);
    assert_eq!(found(&words, &[0x1018, 0x1010, 0x103A, 0x1005, 0x1037, 0x103A]), []);
    assert_eq!(found(&words, &[0x1018, 0x1010, 0x103A, 0x1005, 0x1038, 0x103A]), [3]);
    assert_eq!(found(&words, &[0x1018, 0x1010, 0x103A]), [1, 4]);
    assert_eq!(found(&words, &[0x1018, 0x1005, 0x103A]), []);
    assert_eq!(found(&words, &[0x1018, 0x1005, 0x103A, 0x1010, 0x103A]), []);
    assert_eq!(found(&words, &[0x1023, 0x1010, 0x103A, 0x1005, 0x103A]), [5, 6]);
    assert_eq!(found(&words, &[0x1021, 0x102D, 0x1010, 0x103A, 0x1005, 0x103A]), [5, 6]);
}

#[test]
fn the_query_is_normalised() {
    let word: [u16; 5] = [0x1000, 0x1014, 0x103A, 0x1037, 0x1000];
    assert_eq!(found(&[&word], &[0x1000, 0x1014, 0x1037, 0x103A]), [0]);
    assert_eq!(found(&[&[0x1026, 0x1000]], &[0x1025, 0x102E]), [0]);
    assert_eq!(found(&[&[0x1026, 0x1038]], &[0x1025, 0x1038, 0x102E]), [0]);
    assert_eq!(found(&[&[0x1000, 0x1009, 0x1039, 0x1005]], &[0x1000, 0x1025, 0x103A]), [0]);
    let marks = [0x1000, 0x103B, 0x103D, 0x1031, 0x102C, 0x1038];
    assert_eq!(found(&[&marks], &[0x1000, 0x1038, 0x102C, 0x1031, 0x103D, 0x103B]), [0]);
}

/// "A live record fits": a removed one does not, and is not counted for 5.
#[test]
fn removed_records_are_not_found() {
    let (mut book, starts) = book_of(&[&[0x1000], &[0x1000, 0x1001], &[0x1000, 0x1000]]);
    book.extend([0; 8]);
    let mut list = [9; 4];
    remove(&mut book, &[0x1000, 0x1001]).unwrap();
    assert_eq!(find_prefix(&book, &[0x1000], &mut list), Ok(2));
    assert_eq!(list, [starts[0], starts[2], 9, 9]);
    assert_eq!(find_prefix(&book, &[0x1000, 0x1001], &mut list), Ok(0));
    remove(&mut book, &[0x1000]).unwrap();
    assert_eq!(find_prefix(&book, &[0x1000], &mut []), refusal(5, 1));
    // Added anew, it stands at the end of the records and is filed first again.
    assert_eq!(add(&mut book, &[0x1000], 1), Ok(Added { start: 26, tidied: false }));
    assert_eq!(find_prefix(&book, &[0x1000], &mut list), Ok(2));
    assert_eq!(list, [26, starts[2], 9, 9]);
}

/// "When the list is too short the answer is 5 with that number."
#[test]
fn the_list_may_have_any_length() {
    let (book, _) = book_of(&[&[0x1001], &[0x1000, 0x1001], &[0x1000], &[0x1000, 0x1000]]);
    for room in 0..3 {
        let mut list = vec![9; room];
        assert_eq!(find_prefix(&book, &[0x1000], &mut list), refusal(5, 3));
        assert_eq!(list, vec![9; room]);
    }
    let mut list = [9; 5];
    assert_eq!(find_prefix(&book, &[0x1000], &mut list[..3]), Ok(3));
    assert_eq!(list, [17, 25, 8, 9, 9]);
    let mut list = [9; 5];
    assert_eq!(find_prefix(&book, &[0x1000], &mut list), Ok(3));
    assert_eq!(list, [17, 25, 8, 9, 9]);
    let mut list = [9; 5];
    assert_eq!(find_prefix(&book, &[0x1002], &mut list), Ok(0));
    assert_eq!(list, [9; 5]);
    assert_eq!(find_prefix(&book, &[0x1002], &mut []), Ok(0));
    assert_eq!(find_prefix(&[], &[0x1000], &mut []), Ok(0));
}

/// "the order of tests is 01's, with 5 last"
#[test]
fn the_query_is_tested_before_the_book_and_the_book_before_the_list() {
    let cases: [(&[u16], u8, usize); 14] = [
        (&[0x1000; WORD_LIMIT + 1], 1, WORD_LIMIT),
        (&[0; WORD_LIMIT + 1], 1, WORD_LIMIT),
        (&[], 8, 0),
        (&[0x1000, 0x1022], 2, 1),
        (&[0x103A, 0x0041], 2, 1),
        (&[0x1000, 0x1039], 3, 1),
        (&[0x1000, 0x1000, 0x1039], 4, 3),
        // Sorted it is 1000 103B 103C, of which the first two values can go on.
        (&[0x1000, 0x103C, 0x103B], 3, 2),
        // Stored it is 1026 103A, which is refused behind its first value.
        (&[0x1025, 0x103A, 0x102E], 3, 1),
        (&[0x1023, 0x1000, 0x1039], 4, 3),
        (&[0x104C, 0x1000, 0x103A], 3, 2),
        (&[0x1000, 0x1000, 0x103A, 0x1005, 0x103A, 0x1019, 0x103A], 3, 6),
        (&[0x1000, 0x1000, 0x103A, 0x1005, 0x1039, 0x1005], 3, 4),
        (&[0x1000, 0x1010, 0x1037, 0x103A, 0x1005, 0x103A], 3, 5),
    ];
    let (right, _) = book_of(&[&[0x1000], &[0x1000, 0x1000]]);
    let wrong = [&right[..], &[7]].concat();
    let mut list = [9; 3];
    for (query, number, place) in cases {
        for book in [&right, &wrong, &vec![0; BOOK_LIMIT + 1]] {
            assert_eq!(find_prefix(book, query, &mut list), refusal(number, place));
            assert_eq!(find_prefix(book, query, &mut []), refusal(number, place));
        }
    }
    assert_eq!(find_prefix(&wrong, &[0x1000], &mut list), refusal(11, 17));
    assert_eq!(find_prefix(&wrong, &[0x1000], &mut []), refusal(11, 17));
    let overlong = [0; BOOK_LIMIT + 1];
    assert_eq!(find_prefix(&overlong, &[0x1000], &mut list), refusal(11, BOOK_LIMIT));
    assert_eq!(find_prefix(&right, &[0x1000], &mut list[..1]), refusal(5, 2));
    assert_eq!(list, [9; 3]);
}

/// The keys of the syllables of a word, each spelled out and read by itself.
fn keys_of_spelled(word: &[u16]) -> Vec<Weights> {
    let (mut values, mut starts) = ([0; SPELLED_LIMIT], [0; WORD_LIMIT + 1]);
    let lengths = spell_out(word, &mut values, &mut starts).unwrap();
    starts[lengths.starts] = lengths.values;
    let ends = starts[..=lengths.starts].windows(2);
    ends.map(|ends| key(&values[ends[0]..ends[1]]).unwrap().row()[0]).collect()
}

/// Every readable word of up to so many of the values, in word order.
fn readable(values: &[u16], length: usize) -> Vec<Vec<u16>> {
    let mut words: Vec<Vec<u16>> = vec![vec![]];
    for shorter in 0..length {
        let longest: Vec<_> = words.iter().filter(|word| word.len() == shorter).cloned().collect();
        for word in longest {
            words.extend(values.iter().map(|&value| [&word[..], &[value]].concat()));
        }
    }
    words.retain(|word| !word.is_empty() && read(word).is_ok());
    words.sort_by(|first, second| compare(first, second).unwrap());
    words
}

/// Spelled out, a final stands by itself, in whichever form it was written.
#[test]
fn short_words_are_found_by_their_spelled_syllables() {
    let words = readable(&[0x1000, 0x101E, 0x1025, 0x102C, 0x1039, 0x103A, 0x103F], 4);
    are_found_by_spelled_syllables(&words);
}

#[test]
fn words_with_two_finals_are_found_by_their_spelled_syllables() {
    let words = readable(&[0x1000, 0x1001, 0x103A], 6);
    assert!(words.contains(&vec![0x1001, 0x1000, 0x103A, 0x1001, 0x103A, 0x1000]));
    are_found_by_spelled_syllables(&words);
}

fn are_found_by_spelled_syllables(words: &[Vec<u16>]) {
    let keys: Vec<_> = words.iter().map(|word| keys_of_spelled(word)).collect();
    let (book, starts) = book_of(&words.iter().map(Vec::as_slice).collect::<Vec<_>>());
    let mut finds = 0;
    for (query, asked) in words.iter().zip(&keys) {
        let fits = |number: &usize| keys[*number].starts_with(asked);
        let expected: Vec<usize> = (0..words.len()).filter(fits).collect();
        assert_eq!(found_in(&book, &starts, query), expected, "{query:04X?}");
        finds += expected.len();
    }
    assert!(finds > 2 * words.len(), "{finds} of {} words", words.len());
}
