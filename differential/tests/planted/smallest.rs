//! A difference is made as small as it can be: a case for each kind of argument, with the exact smallest
//! one that shows a fault, and what is told of it.

use crate::faults::ALL;
use differential::{run, Call, Case, Counts, Finding, Reference, Report};
use jogcairn::{LABEL_LIMIT, RECORD_SIZE};

/// As many inputs as a run has by default; a fault is found long before.
const INPUTS: usize = 1_000_000;

/// What a run finds of a fault of the table.
fn finding(call: Call, what: &str) -> Finding {
    let mut faults = ALL.into_iter().flatten();
    let fault = faults.find(|fault| fault.call == call && fault.what == what).expect("a fault");
    run(fault, &Reference, 1, INPUTS).1.expect("a finding")
}

/// Demands that this word, with these numbers, is the smallest case that shows the fault.
fn word(call: Call, what: &str, word: &[u16], numbers: [usize; 2]) {
    let case = finding(call, what).case;
    assert_eq!(case, Case { numbers, ..Case::of_word(call, word.to_vec()) }, "{case}");
}

/// Demands the same of these bytes and this word.
fn bytes(call: Call, what: &str, bytes: &[u8], word: &[u16], numbers: [usize; 2]) {
    let case = finding(call, what).case;
    let smallest = Case { word: word.to_vec(), numbers, ..Case::of_bytes(call, bytes.to_vec()) };
    assert_eq!(case, smallest, "{case}");
}

#[test]
fn words() {
    word(Call::Read, "a place behind kinzi", &[0x1000, 0x1004, 0x103A, 0x1039], [0; 2]);
    word(Call::Record, "a tone for another", &[0x1021, 0x1038], [0; 2]);
    word(Call::Label, "as many syllables as may be refused", &[0x1000; LABEL_LIMIT], [0; 2]);
    word(Call::TypedPlace, "equal marks in exchanged order", &[0x1038; 2], [0; 2]);
}

#[test]
fn two_words() {
    let case = finding(Call::Compare, "a refused second word said of the first").case;
    assert_eq!((case.word.len(), case.second.len()), (0, 1), "{case}");
    let case = finding(Call::LookAlike, "words of different lengths held to differ").case;
    let mut words = [case.word, case.second];
    words.sort_unstable();
    assert_eq!(words, [vec![0x101E, 0x103C], vec![0x1029]]);
}

#[test]
fn rooms_and_numbers() {
    word(Call::Key, "a key written though short", &[], [1, 0]);
    word(Call::Skeleton, "a letter that becomes one value", &[0x1029], [0; 2]);
    word(Call::Normalise, "a value written behind the output", &[0x1000; 2], [2, 0]);
    word(Call::RecordBytes, "zeros where there is no syllable", &[], [RECORD_SIZE, 0]);
}

#[test]
fn lines_and_records() {
    bytes(Call::Decode, "a panic", &[0; 4], &[], [0; 2]);
    bytes(Call::Write, "records of seven bytes", &[0; 7], &[], [0; 2]);
}

/// A removed record of the word 1000, and a live one.
const REMOVED: &[u8] = b"M-\x01\0\0\0\0\0";
const LIVE: &[u8] = b"MW\x01\0\0\0\0\0";

#[test]
fn books() {
    bytes(Call::BookTidy, "gaps left open", &[REMOVED, LIVE].concat(), &[], [0; 2]);
    bytes(Call::BookWord, "a removed record told as live", REMOVED, &[], [1, 0]);
    let case = finding(Call::BookRank, "a start beside that of a record").case;
    assert_eq!((case.bytes.len(), case.numbers), (2 * LIVE.len(), [0; 2]), "{case}");
}

#[test]
fn books_with_words() {
    let add = "a stock number cut short";
    bytes(Call::BookAdd, add, &[0; 8], &[0x1000], [1 << 24, 0]);
    bytes(Call::BookAdd, "a full book that is tidied", REMOVED, &[0x1000; 2], [0; 2]);
    let tidied = [REMOVED, &[0; 8]].concat();
    bytes(Call::BookPreview, "tidying where the record fits", &tidied, &[0x1000], [0; 2]);
    let typed = "a word counted as it is typed";
    bytes(Call::BookPreview, typed, &[0; 8], &[0x1025, 0x102E], [0; 2]);
}

#[test]
fn books_with_queries() {
    let longer = b"MW\x02\0\0\0\0\0\0";
    bytes(Call::BookFindPrefix, "whole words alone", longer, &[0x1000], [0; 2]);
    let both = [&longer[..], LIVE].concat();
    bytes(Call::BookFindPrefix, "starts in their own order", &both, &[0x1000], [2, 0]);
    let (what, stacked) = ("a stacked final not found by a plain one", b"MW\x04\0\0\0\0\0\0\x39\0");
    bytes(Call::BookFindPrefix, what, stacked, &[0x1000, 0x1000, 0x103A], [0; 2]);
}

#[test]
fn the_report_tells_the_case_and_both_answers() {
    let found = finding(Call::Read, "a place behind kinzi");
    let report = Report { counts: &Counts::new(), finding: Some(&found) }.to_string();
    let told = "read\n  word (4 values): 1000 1004 103A 1039\n  proved: refused 4 at 5\n  oracle: refused 4 at 4";
    assert!(report.ends_with(told), "{report}");
    let found = finding(Call::Normalise, "a value written behind the output").difference;
    let told = found.tried.beside(&found.reference);
    assert!(told.contains("argument 1 from cell 2 on: 0000"), "{told}");
}
