//! Labels come in every kind, with what decides over them at every place, and so do words that are
//! none and pairs that look alike.

mod kinds;

use differential::{Answer, Call, Case, Outcome};
use jogcairn::{LABEL_LIMIT, SKELETON_LIMIT, WORD_LIMIT};
use kinds::{demand, place_of};

fn is_accepted(outcome: &Outcome) -> bool {
    matches!(outcome.answer, Answer::Accepted(_))
}

/// The word as it is stored; empty where it is not readable.
fn stored(word: &[u16]) -> Vec<u16> {
    let mut output = [0; WORD_LIMIT];
    let count = oracle::normalise(word, &mut output);
    count.map_or_else(|_| Vec::new(), |count| output[..count].to_vec())
}

/// The stored word of a label that is asked for.
fn label(case: &Case, outcome: &Outcome) -> Option<Vec<u16>> {
    (case.call == Call::Label && is_accepted(outcome)).then(|| stored(&case.word))
}

fn is_confusable(value: &u16) -> bool {
    matches!(value, 0x1040 | 0x1047)
}

fn is_digit(value: &u16) -> bool {
    matches!(value, 0x1040..=0x1049)
}

#[test]
fn labels_have_digits_in_every_way() {
    demand(&[
        ("1040 alone", |case, outcome| label(case, outcome).is_some_and(|word| word == [0x1040])),
        ("1047 alone", |case, outcome| label(case, outcome).is_some_and(|word| word == [0x1047])),
        ("two of them together", |case, outcome| {
            label(case, outcome)
                .is_some_and(|word| word.windows(2).any(|it| it.iter().all(is_confusable)))
        }),
        ("between other digits, between letters", |case, outcome| {
            label(case, outcome).is_some_and(|word| {
                let digits = word.iter().position(is_digit).zip(word.iter().rposition(is_digit));
                word.iter().any(is_confusable)
                    && digits.is_some_and(|(first, last)| 0 < first && last + 1 < word.len())
            })
        }),
        ("first, with letters behind its digits", |case, outcome| {
            label(case, outcome).is_some_and(|word| {
                word.first().is_some_and(is_confusable) && !word.iter().all(is_digit)
            })
        }),
        ("last, with letters before its digits", |case, outcome| {
            label(case, outcome).is_some_and(|word| {
                word.last().is_some_and(is_confusable) && !word.iter().all(is_digit)
            })
        }),
        ("another digit beside a letter", |case, outcome| {
            label(case, outcome)
                .is_some_and(|word| word.windows(2).any(|it| is_digit(&it[0]) != is_digit(&it[1])))
        }),
        ("digits alone, as many as may be", |case, outcome| {
            label(case, outcome)
                .is_some_and(|word| word.len() == LABEL_LIMIT && word.iter().all(is_digit))
        }),
    ]);
}

/// The stored word that is refused with a number at a place, and the place.
fn refused(case: &Case, outcome: &Outcome, number: u8) -> Option<(Vec<u16>, usize)> {
    let place = place_of(outcome, number).filter(|_| case.call == Call::Label)?;
    Some((stored(&case.word), place))
}

#[test]
fn digits_are_refused_in_every_way() {
    demand(&[
        ("1040 behind a letter, last", |case, outcome| {
            refused(case, outcome, 22)
                .is_some_and(|(word, place)| word[place] == 0x1040 && place + 1 == word.len())
        }),
        ("1047 before a letter, first", |case, outcome| {
            refused(case, outcome, 22).is_some_and(|(word, place)| word[0] == 0x1047 && place == 0)
        }),
        ("behind a mark", |case, outcome| {
            refused(case, outcome, 22).is_some_and(|(word, place)| {
                place > 0 && matches!(word[place - 1], 0x102B..=0x103F)
            })
        }),
        ("with a digit on its other side", |case, outcome| {
            refused(case, outcome, 22).is_some_and(|(word, place)| {
                let beside = [place.checked_sub(1), Some(place + 1)];
                beside.iter().flatten().any(|&it| word.get(it).is_some_and(is_digit))
            })
        }),
        ("the second of two runs", |case, outcome| {
            refused(case, outcome, 22)
                .is_some_and(|(word, place)| word[..place].iter().any(is_confusable))
        }),
        ("in a word of too many syllables", |case, outcome| {
            refused(case, outcome, 22).is_some() && syllables(&case.word) > LABEL_LIMIT
        }),
        ("behind 1025 102E", |case, outcome| {
            refused(case, outcome, 22).is_some_and(|(_, place)| !is_confusable(&case.word[place]))
        }),
    ]);
}

/// How many syllables the word has as it is stored.
fn syllables(word: &[u16]) -> usize {
    oracle::read(&stored(word)).map_or(0, |reading| reading.syllables().len())
}

#[test]
fn stops_and_signs_are_refused_in_every_way() {
    demand(&[
        ("a stop", |case, outcome| {
            refused(case, outcome, 21)
                .is_some_and(|(word, place)| matches!(word[place], 0x104A | 0x104B))
        }),
        ("a sign", |case, outcome| {
            refused(case, outcome, 21)
                .is_some_and(|(word, place)| matches!(word[place], 0x104C | 0x104D | 0x104F))
        }),
        ("the sign with a final", |case, outcome| {
            refused(case, outcome, 21).is_some_and(|(word, place)| {
                matches!(word[place..], [0x104E, 0x1000..=0x1020, 0x103A, ..])
            })
        }),
        ("the first of two", |case, outcome| {
            refused(case, outcome, 21)
                .is_some_and(|(word, place)| word[place + 1..].iter().any(|&value| value >= 0x104A))
        }),
        ("the last value", |case, outcome| {
            refused(case, outcome, 21)
                .is_some_and(|(word, place)| place > 0 && place + 1 == word.len())
        }),
        ("behind a digit that is refused alone", |case, outcome| {
            refused(case, outcome, 21).is_some_and(|(word, place)| {
                let without: Vec<u16> = word.iter().copied().filter(|it| *it < 0x104A).collect();
                let alone = oracle::label(&without);
                alone.is_err_and(|refusal| refusal.number == 22 && refusal.place < place)
            })
        }),
        ("in a word of too many syllables", |case, outcome| {
            refused(case, outcome, 21).is_some() && syllables(&case.word) > LABEL_LIMIT
        }),
        ("behind 1025 102E", |case, outcome| {
            refused(case, outcome, 21).is_some_and(|(_, place)| case.word[place] < 0x104A)
        }),
        ("in a word that is not readable", |case, outcome| {
            refused(case, outcome, 3).is_some() && case.word.iter().any(|&it| it >= 0x104A)
        }),
    ]);
}

/// The stored word of a label that has as many syllables as may be.
fn most_syllables(case: &Case, outcome: &Outcome) -> Option<Vec<u16>> {
    let most = Answer::Accepted(vec![LABEL_LIMIT as u64]);
    label(case, outcome).filter(|_| outcome.answer == most)
}

#[test]
fn labels_have_every_number_of_syllables() {
    demand(&[
        ("none", |case, outcome| label(case, outcome).is_some_and(|word| word.is_empty())),
        ("as many as may be, of one value", |case, outcome| {
            most_syllables(case, outcome).is_some_and(|word| word.len() == LABEL_LIMIT)
        }),
        ("as many as may be, of four values and more", |case, outcome| {
            most_syllables(case, outcome).is_some_and(|word| word.len() >= 4 * LABEL_LIMIT)
        }),
        ("one more", |case, outcome| {
            refused(case, outcome, 23).is_some() && syllables(&case.word) == LABEL_LIMIT + 1
        }),
        ("as many as a word has values", |case, outcome| {
            refused(case, outcome, 23).is_some() && syllables(&case.word) == WORD_LIMIT
        }),
    ]);
}

/// The number of values in a skeleton, whether there is room for it or not.
fn skeleton_length(case: &Case, outcome: &Outcome) -> Option<usize> {
    match &outcome.answer {
        Answer::Accepted(numbers) if case.call == Call::Skeleton => Some(numbers[0] as usize),
        Answer::Refused { number: 5, place, .. } if case.call == Call::Skeleton => Some(*place),
        _ => None,
    }
}

#[test]
fn skeletons_come_in_every_length() {
    demand(&[
        ("none", |case, outcome| skeleton_length(case, outcome) == Some(0)),
        ("the longest", |case, outcome| {
            skeleton_length(case, outcome) == Some(SKELETON_LIMIT) && is_accepted(outcome)
        }),
        ("the longest, one value too few", |case, outcome| {
            skeleton_length(case, outcome) == Some(SKELETON_LIMIT)
                && case.numbers[0] == SKELETON_LIMIT - 1
        }),
        ("longer than the word by one", |case, outcome| {
            skeleton_length(case, outcome) == Some(stored(&case.word).len() + 1)
        }),
        ("room for the word, not for the skeleton", |case, outcome| {
            place_of(outcome, 5).is_some_and(|needed| {
                case.call == Call::Skeleton
                    && needed > case.word.len()
                    && case.numbers[0] == case.word.len()
            })
        }),
        ("shorter than the word as typed", |case, outcome| {
            skeleton_length(case, outcome).is_some_and(|length| length < case.word.len())
        }),
    ]);
}

/// Two labels that are written otherwise, and whether they look alike.
fn pair(case: &Case, outcome: &Outcome) -> Option<(Vec<u16>, Vec<u16>, bool)> {
    match &outcome.answer {
        Answer::Accepted(numbers) if case.call == Call::LookAlike && case.word != case.second => {
            Some((stored(&case.word), stored(&case.second), numbers[0] == 1))
        }
        _ => None,
    }
}

#[test]
fn pairs_look_alike_in_every_way() {
    demand(&[
        ("a digit and a letter", |case, outcome| {
            pair(case, outcome).is_some_and(|(one, two, alike)| {
                alike && one.iter().any(is_confusable) != two.iter().any(is_confusable)
            })
        }),
        ("1025 and 1009", |case, outcome| {
            pair(case, outcome).is_some_and(|(one, two, alike)| {
                alike && one.contains(&0x1025) && !two.contains(&0x1025)
            })
        }),
        ("1029 and 101E 103C, of different lengths", |case, outcome| {
            pair(case, outcome).is_some_and(|(one, two, alike)| alike && one.len() < two.len())
        }),
        ("1029 and 101E 103C, in exchanged places", |case, outcome| {
            pair(case, outcome).is_some_and(|(one, two, alike)| {
                alike
                    && one != two
                    && one.len() == two.len()
                    && one.contains(&0x1029)
                    && two.contains(&0x1029)
            })
        }),
        ("the same word typed otherwise", |case, outcome| {
            pair(case, outcome).is_some_and(|(one, two, alike)| alike && one == two)
        }),
        ("skeletons of one length that differ", |case, outcome| {
            let length = |word: &[u16]| oracle::skeleton(word).map(|skeleton| skeleton.len());
            pair(case, outcome)
                .is_some_and(|(one, two, alike)| !alike && length(&one) == length(&two))
        }),
        ("a skeleton that begins with the other", |case, outcome| {
            pair(case, outcome).is_some_and(|(one, two, alike)| {
                let skeletons = oracle::skeleton(&one).ok().zip(oracle::skeleton(&two).ok());
                !alike
                    && skeletons.is_some_and(|(one, two)| !one.is_empty() && two.starts_with(&one))
            })
        }),
        ("both are refused", |case, _| {
            case.call == Call::LookAlike
                && oracle::label(&case.word).is_err_and(|first| {
                    oracle::label(&case.second).is_err_and(|second| second != first)
                })
        }),
    ]);
}
