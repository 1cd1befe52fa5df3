//! Labels: the examples of document 02, and the cases that the page of readings names.

use oracle::formula::writings;
use oracle::labels::{replaced, REPLACEMENTS};
use oracle::letters::admitted_values;
use oracle::limits::{LABEL_LIMIT, SKELETON_LIMIT, WORD_LIMIT};
use oracle::lists::{likely_label, long_skeleton, with_longest_skeleton};
use oracle::program::Program;
use oracle::random::Random;
use oracle::syllable::Piece;
use oracle::{label, look_alike, normalise, put_skeleton, skeleton, Refusal, Which};
use std::collections::BTreeMap;

/// Number and place, which are the same whatever is asked of the word.
fn refused(word: &[u16]) -> (u8, usize) {
    let refusal = label(word).unwrap_err();
    assert_eq!(skeleton(word), Err(refusal));
    assert_eq!(put_skeleton(word, &mut []), Err(refusal), "an output is tested last");
    assert_eq!(look_alike(word, &[0x104A]), Err((Which::First, refusal)));
    assert_eq!(look_alike(&[], word), Err((Which::Second, refusal)));
    (refusal.number, refusal.place)
}

/// The number of syllables and the skeleton.
fn accepted(word: &[u16]) -> (usize, Vec<u16>) {
    let skeleton = skeleton(word).unwrap();
    let mut output = [7; SKELETON_LIMIT + 7];
    assert_eq!(put_skeleton(word, &mut output), Ok(skeleton.len()));
    let (written, rest) = output.split_at(skeleton.len());
    assert!(written == skeleton && rest.iter().all(|&value| value == 7));
    (label(word).unwrap(), skeleton)
}

#[test]
fn digits_that_look_like_letters_are_replaced() {
    assert_eq!(accepted(&[0x1040]), (1, vec![0x101D]));
    assert_eq!(accepted(&[0x1047]), (1, vec![0x101B]));
    assert_eq!(accepted(&[0x1040, 0x1047]), (2, vec![0x101D, 0x101B]));
    assert_eq!(look_alike(&[0x1040, 0x1047], &[0x101D, 0x101B]), Ok(true));
    assert_eq!(look_alike(&[0x1040], &[0x1041]), Ok(false));
    let others: Vec<u16> = (0x1041..=0x1046).chain([0x1048, 0x1049]).collect();
    assert_eq!(accepted(&others), (8, others));
}

/// The end of a word is no value, and two such digits may stand together.
#[test]
fn such_a_digit_stands_next_to_digits_alone() {
    assert_eq!(refused(&[0x1000, 0x1040]), (22, 1));
    assert_eq!(refused(&[0x1040, 0x1000]), (22, 0));
    assert_eq!(refused(&[0x1047, 0x1000]), (22, 0));
    assert_eq!(accepted(&[0x1000, 0x1041, 0x1040]), (3, vec![0x1000, 0x1041, 0x101D]));
    assert_eq!(accepted(&[0x1040, 0x1041, 0x1000]), (3, vec![0x101D, 0x1041, 0x1000]));
    assert_eq!(accepted(&[0x1041, 0x1000, 0x1049]), (3, vec![0x1041, 0x1000, 0x1049]));
    assert_eq!(refused(&[0x1041, 0x1040, 0x1047, 0x1000]), (22, 2));
    assert_eq!(refused(&[0x1000, 0x1041, 0x1040, 0x1000, 0x1047]), (22, 2));
    assert_eq!(refused(&[0x1040, 0x1041, 0x1000, 0x1047, 0x1040]), (22, 3));
    // Next to it stands a value, not a syllable: a mark, a tone, a killer.
    assert_eq!(refused(&[0x1000, 0x102C, 0x1040]), (22, 2));
    assert_eq!(refused(&[0x1000, 0x1038, 0x1047]), (22, 2));
    assert_eq!(refused(&[0x1000, 0x1014, 0x103A, 0x1047]), (22, 3));
}

#[test]
fn stops_and_signs_are_refused_wherever_they_stand() {
    assert_eq!(refused(&[0x1000, 0x1040, 0x104B]), (21, 2));
    for value in 0x104A..=0x104F {
        assert_eq!(refused(&[value]), (21, 0));
        assert_eq!(refused(&[0x1000, 0x102C, value, 0x104A]), (21, 2));
        assert_eq!(refused(&[0x1040, value]), (21, 1));
    }
    assert_eq!(refused(&[0x104E, 0x1004, 0x103A]), (21, 0));
    assert_eq!(refused(&[0x1000, 0x104E, 0x103F]), (21, 1));
}

#[test]
fn letters_that_look_like_others_are_replaced() {
    assert_eq!(accepted(&[0x1029]), (1, vec![0x101E, 0x103C]));
    let twice = vec![0x101E, 0x103C, 0x101E, 0x103C, 0x1038];
    assert_eq!(accepted(&[0x1029, 0x1029, 0x1038]), (2, twice));
    let (independent, letter) = ([0x1025, 0x1000, 0x103A], [0x1009, 0x1000, 0x103A]);
    assert_eq!(accepted(&independent), (1, letter.to_vec()));
    assert_eq!(accepted(&letter), (1, letter.to_vec()));
    assert_eq!(look_alike(&independent, &letter), Ok(true));
    assert_eq!(look_alike(&[0x1029], &[0x101E, 0x103C]), Ok(true));
    assert_eq!(look_alike(&[0x1029], &[0x101E]), Ok(false));
    assert_eq!(look_alike(&[0x1000, 0x102B], &[0x1000, 0x102C]), Ok(false));
}

/// A digit may look like a letter beside another digit, and a word like a longer one.
#[test]
fn labels_of_different_kinds_and_lengths_look_alike() {
    assert_eq!(look_alike(&[0x1040, 0x1041], &[0x101D, 0x1041]), Ok(true));
    assert_eq!(look_alike(&[0x1029, 0x1000], &[0x101E, 0x103C, 0x1000]), Ok(true));
    assert_eq!(look_alike(&[0x1000, 0x1025], &[0x1000, 0x1009]), Ok(true));
    // What would look alike is refused where it is no label.
    let refused = Err((Which::First, Refusal { number: 22, place: 0 }));
    assert_eq!(look_alike(&[0x1040, 0x1029], &[0x101D, 0x101E, 0x103C]), refused);
}

#[test]
fn the_word_is_normalised_first() {
    assert_eq!(accepted(&[0x1025, 0x102E]), (1, vec![0x1026]));
    assert_eq!(look_alike(&[0x1025, 0x102E], &[0x1026]), Ok(true));
    assert_eq!(accepted(&[0x1000, 0x102C, 0x1031]), (1, vec![0x1000, 0x1031, 0x102C]));
    assert_eq!(accepted(&[0x1000, 0x1025, 0x103A]), (1, vec![0x1000, 0x1009, 0x103A]));
    // Places are those of the stored word, which has a value less.
    assert_eq!(refused(&[0x1025, 0x102E, 0x104A]), (21, 1));
    assert_eq!(refused(&[0x1025, 0x102E, 0x1040]), (22, 1));
    assert_eq!(refused(&[0x1025, 0x1038, 0x102E, 0x104E]), (21, 2));
}

#[test]
fn a_label_has_as_many_syllables_as_the_limit_and_no_more() {
    assert_eq!(accepted(&[0x1000; LABEL_LIMIT]), (LABEL_LIMIT, vec![0x1000; LABEL_LIMIT]));
    assert_eq!(refused(&[0x1000; LABEL_LIMIT + 1]), (23, LABEL_LIMIT));
    assert_eq!(refused(&[0x1000; WORD_LIMIT]), (23, LABEL_LIMIT));
    assert_eq!(refused(&[0x1040; LABEL_LIMIT + 1]), (23, LABEL_LIMIT));
    // Behind as many syllables as may be, the value has their number for its place.
    let with_last = |value| [&[0x1000; LABEL_LIMIT][..], &[value]].concat();
    assert_eq!(refused(&with_last(0x104A)), (21, LABEL_LIMIT));
    assert_eq!(refused(&with_last(0x1047)), (22, LABEL_LIMIT));
    assert_eq!(label(&with_last(0x102C)), Ok(LABEL_LIMIT));
}

#[test]
fn the_empty_word_is_a_label() {
    assert_eq!(accepted(&[]), (0, Vec::new()));
    assert_eq!(look_alike(&[], &[]), Ok(true));
    assert_eq!(look_alike(&[], &[0x1000]), Ok(false));
}

#[test]
fn what_is_no_word_is_refused_before_what_is_no_label() {
    assert_eq!(refused(&[0x104A; WORD_LIMIT + 1]), (1, WORD_LIMIT));
    assert_eq!(refused(&[0x104A, 0x1022]), (2, 1));
    assert_eq!(refused(&[0x1025, 0x102E, 0x1040, 0x1022]), (2, 3));
    assert_eq!(refused(&[0x104B, 0x103A]), (3, 1));
    assert_eq!(refused(&[0x1000, 0x1040, 0x1000, 0x1000, 0x1039]), (4, 5));
    let open = [&[0x1000; LABEL_LIMIT + 1][..], &[0x1039]].concat();
    assert_eq!(refused(&open), (4, open.len()));
}

#[test]
fn a_short_output_is_refused_last_and_left_alone() {
    let mut output = [7; 2];
    let too_short = put_skeleton(&[0x1029, 0x1038], &mut output);
    assert_eq!(too_short, Err(Refusal { number: 5, place: 3 }), "1029 becomes two values");
    assert_eq!(output, [7; 2]);
    assert_eq!(put_skeleton(&[0x1029], &mut output), Ok(2));
    assert_eq!(output, [0x101E, 0x103C]);
}

/// The longest skeleton of a row with so few syllables and values, over every way to put
/// writings together. By what stands next, and by syllables and values so far.
fn longest_skeleton() -> usize {
    let mut longest = BTreeMap::from([((Piece::Head as u8, 0, 0), 0)]);
    let mut open = vec![(Piece::Head, 0, 0)];
    while let Some((piece, syllables, values)) = open.pop() {
        let skeleton = longest[&(piece as u8, syllables, values)];
        let syllables = syllables + usize::from(piece.begins_syllable());
        for writing in writings(piece).filter(|_| syllables <= LABEL_LIMIT) {
            let values = values + writing.values().len();
            let skeleton = skeleton + replaced(writing.values()).len();
            let known = longest.get(&(writing.then as u8, syllables, values));
            if values <= WORD_LIMIT && known.is_none_or(|&known| known < skeleton) {
                longest.insert((writing.then as u8, syllables, values), skeleton);
                open.push((writing.then, syllables, values));
            }
        }
    }
    let rows = longest.iter().filter(|((next, ..), _)| *next == Piece::Head as u8);
    rows.map(|(_, &skeleton)| skeleton).max().unwrap()
}

#[test]
fn no_skeleton_is_longer_than_its_limit() {
    let word = with_longest_skeleton();
    assert_eq!(word[..6], [0x1029, 0x1014, 0x103A, 0x1005, 0x103A, 0x1038]);
    let (syllables, skeleton) = accepted(&word);
    assert_eq!((word.len(), syllables), (WORD_LIMIT, LABEL_LIMIT));
    assert_eq!(skeleton.len(), SKELETON_LIMIT);
    assert_eq!(longest_skeleton(), SKELETON_LIMIT);
}

/// Every label of up to three values of those that are replaced, those that they become, and
/// some others.
fn short_labels() -> Vec<Vec<u16>> {
    let values = [0x1000, 0x1009, 0x101B, 0x101D, 0x101E, 0x1025, 0x1029, 0x103C, 0x1040, 0x1047];
    let longer = |words: &[Vec<u16>]| -> Vec<Vec<u16>> {
        let longer = |word: &Vec<u16>| values.map(|value| [&word[..], &[value]].concat());
        words.iter().flat_map(longer).collect()
    };
    let one = longer(&[Vec::new()]);
    let two = longer(&one);
    let three = longer(&two);
    let all = [vec![Vec::new()], one, two, three].concat();
    all.into_iter().filter(|word| label(word).is_ok()).collect()
}

#[test]
fn looking_alike_is_an_equivalence() {
    let labels = short_labels();
    let alike: Vec<Vec<bool>> = labels
        .iter()
        .map(|first| labels.iter().map(|second| look_alike(first, second).unwrap()).collect())
        .collect();
    let pairs = (0..labels.len()).flat_map(|one| (0..labels.len()).map(move |two| (one, two)));
    let alike_pairs: Vec<_> = pairs.filter(|&(one, two)| alike[one][two]).collect();
    assert!(alike_pairs.len() > labels.len(), "some of them look like others");
    assert!((0..labels.len()).all(|one| alike[one][one]));
    for (one, two) in alike_pairs {
        assert!(alike[two][one]);
        assert!((0..labels.len()).all(|three| !alike[two][three] || alike[one][three]));
    }
}

/// "The skeleton's own values, put through the same replacements again, don't change."
#[test]
fn replacing_twice_changes_nothing() {
    let is_replaced = |value: &u16| REPLACEMENTS.iter().any(|(from, _)| from == value);
    assert!(REPLACEMENTS.iter().all(|(_, to)| !to.iter().any(is_replaced)));
    for value in admitted_values() {
        let once = replaced(&[value]);
        assert_eq!(replaced(&once), once);
        assert_eq!(once == [value], !is_replaced(&value));
    }
    let mut random = Random::of("replacing_twice_changes_nothing");
    for _ in 0..2_000 {
        for word in [likely_label(&mut random), long_skeleton(&mut random)] {
            let once = replaced(&word);
            assert_eq!(replaced(&once), once);
        }
    }
}

/// One rule behind the other gives what each value gives on its own.
#[test]
fn each_value_is_replaced_by_itself() {
    let mut random = Random::of("each_value_is_replaced_by_itself");
    let mut labels = 0;
    for _ in 0..2_000 {
        let word = likely_label(&mut random);
        let Ok(skeleton) = skeleton(&word) else { continue };
        let mut stored = [0; WORD_LIMIT];
        let count = normalise(&word, &mut stored).unwrap();
        let single = stored[..count].iter().flat_map(|&value| replaced(&[value]));
        assert!(single.eq(skeleton));
        labels += 1;
    }
    assert!(labels > 500, "{labels}");
}

#[test]
fn the_program_prints_skeletons() {
    let mut output = Vec::new();
    let input = "ကာ\nက၀။\n\nဩ\n၀၇\nဥက်\nက္\n\u{1022}\na\n";
    Program::Labels.run(input.as_bytes(), &mut output).unwrap();
    let expected = "1 OK 1000-102C\n2 NO 21 2\n3 OK -\n4 OK 101E-103C\n5 OK 101D-101B\n\
                    6 OK 1009-1000-103A\n7 NO 3 1\n8 NO 2 0\n9 NO 7 0\n";
    assert_eq!(String::from_utf8(output).unwrap(), expected);
}
