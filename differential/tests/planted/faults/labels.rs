//! Labels that are taken or refused otherwise, and skeletons that are made otherwise.

use super::made::Made;
use super::Seen::{Answers, Left};
use super::{fault, Fault};
use differential::Answer;
use differential::Call::{Label, LookAlike, Skeleton};
use jogcairn::LABEL_LIMIT;

pub const FAULTS: &[Fault] = &[
    fault(Label, "the end of the word taken for a value", Answers(22, 0), |it| {
        let word = it.stored();
        let last = word.len().checked_sub(1);
        it.refuse_at(22, last.filter(|&last| is_confusable(word[last])))
    }),
    fault(Label, "what stands before the word taken for a value", Answers(22, 0), |it| {
        let word = it.stored();
        it.refuse_at(22, word.first().filter(|&&first| is_confusable(first)).map(|_| 0))
    }),
    fault(Label, "a digit refused beside another digit", Answers(22, 0), |it| {
        let word = it.stored();
        it.refuse_at(22, word.windows(2).position(|pair| is_confusable(pair[0])))
    }),
    // Only the value behind it is looked at.
    fault(Label, "a digit behind a letter taken", Answers(0, 22), |it| {
        let (word, last) = (it.stored(), it.stored().len().wrapping_sub(1));
        let is_last =
            matches!(it.answer, Answer::Refused { number: 22, place, .. } if place == last);
        it.accept_if(is_last, &[syllables(&word)])
    }),
    fault(Label, "another digit refused beside a letter", Answers(22, 0), |it| {
        let word = it.stored();
        let fits = |pair: &[u16]| is_digit(pair[0]) && !is_digit(pair[1]);
        it.refuse_at(22, word.windows(2).position(fits))
    }),
    fault(Label, "the place of the neighbour", Answers(22, 22), |it| {
        it.change_place(22, |place| place + 1)
    }),
    // With a final it is taken for an independent vowel, which is no sign.
    fault(Label, "the sign with a final taken", Answers(0, 21), |it| {
        let mut word = it.stored();
        for place in 2..word.len() {
            if let [sign @ 0x104E, _, 0x103A] = &mut word[place - 2..=place] {
                *sign = 0x1023;
            }
        }
        if it.tag() == 21 {
            it.answer_for(word);
        }
    }),
    fault(Label, "as many syllables as may be refused", Answers(23, 0), |it| {
        it.refuse_at(23, it.number().filter(|&count| count == LABEL_LIMIT))
    }),
    fault(Label, "one syllable too many taken", Answers(0, 23), |it| {
        let count = syllables(&it.stored());
        it.accept_if(it.tag() == 23 && count == LABEL_LIMIT + 1, &[count])
    }),
    fault(Label, "too many syllables before a stop", Answers(23, 21), |it| {
        it.refuse_if(it.tag() == 21 && syllables(&it.stored()) > LABEL_LIMIT, 23, LABEL_LIMIT)
    }),
    fault(Label, "a digit before a stop", Answers(22, 21), |it| {
        let digit = confusable_digit(&it.stored());
        it.refuse_if(it.tag() == 21 && digit.is_some(), 22, digit.unwrap_or(0))
    }),
    // Stored with a value less, the word has its stop one place before where it was typed.
    fault(Label, "a place in the word as handed in", Answers(21, 21), |it| {
        let typed = it.case.word.iter().position(|&value| value >= 0x104A);
        it.change_place(21, |_| typed.expect("a stop or a sign"))
    }),
    fault(Skeleton, "a letter left", Left(0), |it| {
        skeleton_by(it, |value| if value == 0x1025 { vec![value] } else { replaced(value) })
    }),
    fault(Skeleton, "a letter that becomes one value", Answers(5, 5), |it| {
        skeleton_by(it, |value| if value == 0x1029 { vec![0x101E] } else { replaced(value) })
    }),
    fault(Skeleton, "digits exchanged", Left(0), |it| {
        skeleton_by(it, |value| match value {
            0x1040 => vec![0x101B],
            0x1047 => vec![0x101D],
            value => replaced(value),
        })
    }),
    fault(Skeleton, "the word as handed in", Answers(5, 5), |it| {
        if matches!(it.tag(), 0 | 5) {
            it.give(&skeleton(&it.case.word));
        }
    }),
    fault(Skeleton, "room tested by the length of the word", Answers(5, 5), |it| {
        let length = it.stored().len();
        it.change_place(5, |_| length)
    }),
    fault(Skeleton, "a skeleton written though short", Left(5), |it| it.write_though_short(1)),
    fault(Skeleton, "room tested before the label", Answers(5, 21), |it| {
        let length = it.stored().len();
        it.refuse_if(it.tag() == 21 && it.room() < length, 5, length)
    }),
    fault(LookAlike, "words compared in place of skeletons", Answers(0, 0), |it| {
        alike_by(it, |one, two| one == two)
    }),
    fault(LookAlike, "words of different lengths held to differ", Answers(0, 0), |it| {
        alike_by(it, |one, two| one.len() == two.len() && skeleton(one) == skeleton(two))
    }),
    fault(LookAlike, "a beginning taken for the whole skeleton", Answers(0, 0), |it| {
        alike_by(it, |one, two| skeleton(two).starts_with(&skeleton(one)))
    }),
    fault(LookAlike, "a second label said of the first", Answers(21, 21), |it| it.say_of_first(21)),
    fault(LookAlike, "a second word tested before the first", Answers(21, 3), |it| {
        let stop = jogcairn::label(&it.case.second).err().filter(|stop| stop.number() == 21);
        if let (Answer::Refused { which: 1, .. }, Some(stop)) = (&it.answer, stop) {
            it.answer = Answer::Refused { number: 21, place: stop.place, which: 2 };
        }
    }),
];

pub const RIGHT: Fault = fault(LookAlike, "the skeletons", Answers(0, 0), |it| {
    alike_by(it, |one, two| skeleton(one) == skeleton(two))
});

fn is_digit(value: u16) -> bool {
    matches!(value, 0x1040..=0x1049)
}

fn is_confusable(value: u16) -> bool {
    matches!(value, 0x1040 | 0x1047)
}

fn syllables(stored: &[u16]) -> usize {
    jogcairn::read(stored).expect("a stored word").len()
}

/// Where the first digit stands that is refused.
fn confusable_digit(word: &[u16]) -> Option<usize> {
    let beside = |place: usize| [place.checked_sub(1), Some(place + 1)].into_iter().flatten();
    let is_other = |place: usize| word.get(place).is_some_and(|&value| !is_digit(value));
    (0..word.len()).find(|&place| is_confusable(word[place]) && beside(place).any(is_other))
}

/// The rule of document 02.
fn replaced(value: u16) -> Vec<u16> {
    match value {
        0x1040 => vec![0x101D],
        0x1047 => vec![0x101B],
        0x1025 => vec![0x1009],
        0x1029 => vec![0x101E, 0x103C],
        value => vec![value],
    }
}

fn skeleton(stored: &[u16]) -> Vec<u16> {
    stored.iter().flat_map(|&value| replaced(value)).collect()
}

/// Gives another skeleton for that of a label.
fn skeleton_by(it: &mut Made, rule: fn(u16) -> Vec<u16>) {
    if matches!(it.tag(), 0 | 5) {
        it.give(&it.stored().into_iter().flat_map(rule).collect::<Vec<u16>>());
    }
}

/// Answers by another rule on the stored words, where both are labels.
fn alike_by(it: &mut Made, rule: fn(&[u16], &[u16]) -> bool) {
    if let Ok(second) = jogcairn::normalise(&it.case.second) {
        it.accept_if(it.tag() == 0, &[usize::from(rule(&it.stored(), &second))]);
    }
}
