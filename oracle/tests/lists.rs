//! The word lists hold what their names say, and are small enough.

mod markless;

use oracle::limits::{LABEL_LIMIT, LINE_LIMIT, SKELETON_LIMIT, WEIGHTS, WORD_LIMIT};
use oracle::lists::{all, random_row, row_of_length, shuffle_runs, List};
use oracle::program::Program;
use oracle::random::Random;
use oracle::storage::store;
use oracle::{compare, decode, look_alike, normalise, read};
use std::cmp::Ordering;
use std::collections::BTreeSet;
use std::sync::LazyLock;

static LISTS: LazyLock<Vec<List>> = LazyLock::new(|| all(Program::Wordlist));

static LABEL_LISTS: LazyLock<Vec<List>> = LazyLock::new(|| all(Program::Labels));

fn list(name: &str) -> &'static List {
    LISTS.iter().find(|list| list.name == name).unwrap()
}

fn answers(list: &List) -> Vec<String> {
    printed(list, Program::Wordlist)
}

fn printed(list: &List, program: Program) -> Vec<String> {
    String::from_utf8(list.expected(program)).unwrap().lines().map(String::from).collect()
}

#[test]
fn the_lists_are_of_the_right_size() {
    let input: usize = LISTS.iter().map(|list| list.input.len()).sum();
    let expected: usize = LISTS.iter().map(|list| list.expected(Program::Wordlist).len()).sum();
    let lines: usize = LISTS.iter().map(|list| answers(list).len()).sum();
    assert!((20_000..=40_000).contains(&lines), "{lines} lines");
    assert!(input <= 1_500_000, "{input} bytes of input");
    assert!(expected <= 2_500_000, "{expected} bytes of output");
}

#[test]
fn valid_words_are_readable() {
    for name in ["products", "two_finals", "valid", "long", "shuffled"] {
        for answer in answers(list(name)) {
            assert!(answer.contains(" OK "), "{name}: {answer}");
        }
    }
}

#[test]
fn rows_are_read_as_they_were_put_together() {
    let mut random = Random::of("rows_are_read_as_they_were_put_together");
    for round in 0..2_000 {
        let row = if round % 2 == 0 {
            random_row(&mut random, round / 2 % 6)
        } else {
            row_of_length(&mut random, round / 2 % (WORD_LIMIT + 1))
        };
        let reading = read(&row.values).unwrap();
        assert!(reading.syllables().iter().map(|syllable| syllable.record).eq(row.records));
    }
}

/// Every row is in storage order, so sorting brings a shuffled one back.
#[test]
fn shuffled_rows_are_stored_as_they_were() {
    let mut random = Random::of("shuffled_rows_are_stored_as_they_were");
    for round in 0..2_000 {
        let row = row_of_length(&mut random, round % (WORD_LIMIT + 1)).values;
        let mut shuffled = row.clone();
        shuffle_runs(&mut random, &mut shuffled);
        let mut output = [0; WORD_LIMIT];
        let length = normalise(&shuffled, &mut output).unwrap();
        assert_eq!(output[..length], row);
        assert_eq!(compare(&shuffled, &row), Ok(Ordering::Equal));
    }
}

#[test]
fn every_weight_occurs() {
    let mut seen = [(); WEIGHTS].map(|()| BTreeSet::new());
    for name in ["products", "two_finals", "valid"] {
        for answer in answers(list(name)) {
            for syllable in answer.rsplit(' ').next().unwrap().split('-') {
                for (place, weights) in seen.iter_mut().enumerate() {
                    weights.insert(u8::from_str_radix(&syllable[2 * place..][..2], 16).unwrap());
                }
            }
        }
    }
    let [head, medial, first_final, second_final, vowel, tone] = seen;
    assert!(head.into_iter().eq(1..=50));
    assert!(medial.into_iter().eq(0..=11));
    assert!(first_final.into_iter().eq(0..=33));
    assert!(second_final.into_iter().eq(0..=33));
    assert!(vowel.into_iter().eq(0..=12));
    assert!(tone.into_iter().eq(0..=2));
}

/// The words of the lists with these names.
fn words<'n>(names: &'n [&str]) -> impl Iterator<Item = Vec<u16>> + 'n {
    names.iter().flat_map(|name| words_of(list(name)))
}

fn words_of(list: &List) -> impl Iterator<Item = Vec<u16>> + '_ {
    let lines = list.input.split(|&byte| byte == b'\n');
    lines.filter_map(|line| decode(line).ok()).map(|word| word.to_vec())
}

/// The two final letters of each syllable that has two.
fn pairs_in(word: &[u16]) -> Vec<[u8; 2]> {
    let Ok(stored) = store(word) else { return Vec::new() };
    let records = stored.reading.syllables().iter().map(|syllable| syllable.record);
    let pairs = records.map(|[_, _, _, _, first, second, _, _]| [first, second]);
    pairs.filter(|pair| pair[1] > 0).collect()
}

#[test]
fn every_pair_of_finals_occurs() {
    let pairs: BTreeSet<[u8; 2]> =
        words(&["two_finals"]).flat_map(|word| pairs_in(&word)).collect();
    assert!(pairs.into_iter().eq((1..=33).flat_map(|first| (1..=33).map(move |one| [first, one]))));
    for name in ["valid", "long", "shuffled", "beginnings", "damaged", "crowded", "limits"] {
        assert!(words(&[name]).any(|word| !pairs_in(&word).is_empty()), "{name}");
    }
}

/// Of the 32 endings the first 16 are read on the eight heads that carry them: 103F behind
/// the head, and 1039 behind the first letter, make a syllable of their own. The other 16
/// are refused everywhere, and all of them on the two heads that carry nothing.
#[test]
fn what_comes_near_to_two_finals_is_refused() {
    let answers = answers(list("near_two_finals"));
    assert_eq!(answers.len(), 10 * 32);
    for (number, answer) in answers.iter().enumerate() {
        let is_read = number / 32 < 8 && number % 32 < 16;
        assert!(answer.contains(if is_read { " OK " } else { " NO 3 " }), "{answer}");
    }
}

#[test]
fn independent_letters_come_with_every_kind_of_final_and_with_tones() {
    assert_eq!(markless::kinds_in(words(&["products", "two_finals"])), markless::kinds());
    for name in ["valid", "shuffled"] {
        assert_eq!(markless::kinds_in(words(&[name])), markless::kinds(), "{name}");
    }
}

/// Of the 36 things to carry, an I and 104E are read with two tones and five of the finals,
/// and are open with two; 1025 102E is stored as 1026. Every other head that is no letter
/// is refused with all of them. Of the 57 heads, 33 stand under each of the two finals.
#[test]
fn what_heads_carry_is_read_or_refused_as_the_documents_say() {
    let answers = answers(list("carried"));
    let count = |part: &str| answers.iter().filter(|answer| answer.contains(part)).count();
    assert_eq!(answers.len(), 23 * 36 + 2 * 57);
    assert_eq!(count(" OK "), 8 * 7 + 1 + 2 * 33);
    assert_eq!(count(" NO 4 "), 8 * 2);
    assert_eq!(count(" NO 3 "), 8 * 27 - 1 + 15 * 36 + 2 * 24);
}

/// The numbers of the refusals among the answers.
fn refusals_in(answers: &[String]) -> BTreeSet<String> {
    let refused = answers.iter().filter(|answer| answer.contains(" NO "));
    refused.map(|answer| answer.split(' ').nth(2).unwrap().to_string()).collect()
}

fn named(numbers: &[&str]) -> BTreeSet<String> {
    numbers.iter().map(|number| number.to_string()).collect()
}

#[test]
fn every_refusal_of_a_line_occurs() {
    let refusals = |name| refusals_in(&answers(list(name)));
    assert_eq!(refusals("damaged"), named(&["3", "4"]));
    assert_eq!(refusals("crowded"), named(&["3", "4"]));
    assert_eq!(refusals("beginnings"), named(&["4"]), "a valid word's beginning is viable");
    assert_eq!(refusals("noise"), named(&["3", "4"]));
    assert_eq!(refusals("foreign"), named(&["2", "7"]));
    assert_eq!(refusals("bytes"), named(&["2", "3", "7"]));
    assert_eq!(refusals("limits"), named(&["1", "2", "3", "4", "7"]));
    let limits = answers(list("limits"));
    let occurs = |ending: String| limits.iter().any(|answer| answer.ends_with(&ending));
    assert!(occurs(format!(" NO 4 {WORD_LIMIT}")));
    // The last three of the longest line.
    assert!(occurs(format!(" NO 7 {}", LINE_LIMIT - 3)));
}

fn label_list(name: &str) -> &'static List {
    LABEL_LISTS.iter().find(|list| list.name == name).unwrap()
}

fn label_answers(name: &str) -> Vec<String> {
    printed(label_list(name), Program::Labels)
}

#[test]
fn the_label_lists_are_small() {
    let lines: usize = LABEL_LISTS.iter().map(|list| label_answers(list.name).len()).sum();
    assert!((3_000..=6_000).contains(&lines), "{lines} lines");
}

#[test]
fn every_refusal_of_a_label_occurs() {
    let refusals = |name| refusals_in(&label_answers(name));
    assert_eq!(refusals("examples"), named(&["1", "2", "3", "4", "7", "21", "22", "23"]));
    assert_eq!(refusals("digits"), named(&["21", "22"]));
    assert_eq!(refusals("neighbours"), named(&["21", "22"]));
    assert_eq!(refusals("stops_and_signs"), named(&["3", "21"]));
    assert_eq!(refusals("replaced_by_finals"), named(&[]));
    assert_eq!(refusals("pairs"), named(&["3", "21", "22", "23"]));
    assert_eq!(refusals("likely_labels"), named(&["21", "22", "23"]));
    assert_eq!(refusals("long_skeletons"), named(&["1"]));
}

#[test]
fn labels_have_up_to_as_many_syllables_and_values_of_a_skeleton_as_may_be() {
    let words = LABEL_LISTS.iter().flat_map(words_of);
    let counts: BTreeSet<usize> = words.filter_map(|word| oracle::label(&word).ok()).collect();
    assert!(counts.into_iter().eq(0..=LABEL_LIMIT));
    let words = words_of(label_list("long_skeletons"));
    let lengths: BTreeSet<usize> =
        words.filter_map(|word| oracle::skeleton(&word).ok()).map(|it| it.len()).collect();
    let mut longest = SKELETON_LIMIT - 3..=SKELETON_LIMIT;
    assert!(longest.all(|length| lengths.contains(&length)), "{lengths:?}");
}

/// Two words in a row that are spelled otherwise.
#[test]
fn many_pairs_look_alike() {
    let words: Vec<Vec<u16>> = words_of(label_list("pairs")).collect();
    let is_alike = |pair: &[Vec<u16>]| {
        pair[0] != pair[1] && look_alike(&pair[0], &pair[1]).is_ok_and(|alike| alike)
    };
    let alike = words.as_chunks::<2>().0.iter().filter(|pair| is_alike(*pair)).count();
    assert!(alike >= 60, "{alike}");
}
