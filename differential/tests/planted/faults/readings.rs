//! Words that are read, stored, pointed into or spelled otherwise.

use super::made::{is_independent, Made};
use super::Seen::{Answers, Left};
use super::{fault, Fault, PANIC};
use differential::Call::{self, BookCheck, Normalise, Read, Spell};
use jogcairn::{Link, Record, BOOK_RECORD_HEAD};

pub const FAULTS: &[Fault] = &[
    fault(Read, "a place behind kinzi", Answers(4, 4), |it| {
        let has_kinzi = it.case.word.ends_with(&[0x1004, 0x103A, 0x1039]);
        it.change_place(4, |place| place + usize::from(has_kinzi))
    }),
    fault(Read, "an independent vowel takes a medial", Answers(0, 3), |it| {
        with(it, 0x1021, |[head, next]| is_independent(head) && matches!(next, 0x103B..=0x103E))
    }),
    fault(Read, "an independent vowel takes a vowel mark", Answers(0, 3), |it| {
        with(it, 0x1021, |[head, next]| is_independent(head) && is_vowel_mark(next))
    }),
    fault(Read, "the sign takes a vowel mark", Answers(0, 3), |it| {
        with(it, 0x1021, |[head, next]| head == 0x104E && is_vowel_mark(next))
    }),
    fault(Read, "an independent vowel takes no tone", Answers(3, 0), |it| {
        with(it, 0x1040, |[head, next]| is_independent(head) && is_tone(next))
    }),
    fault(Read, "an independent vowel before no great sa", Answers(3, 0), |it| {
        with(it, 0x1040, |[head, next]| is_independent(head) && next == 0x103F)
    }),
    fault(Read, "great sa behind a tone", Answers(0, 3), |it| {
        let toned =
            |[head, tone, sa]: [u16; 3]| is_independent(head) && is_tone(tone) && sa == 0x103F;
        instead(it, toned, |[head, _, sa]| vec![head, sa])
    }),
    fault(Read, "an independent vowel under a stacker", Answers(0, 3), |it| {
        let stacked = |[stacker, under]: [u16; 2]| stacker == 0x1039 && is_independent(under);
        instead(it, stacked, |[stacker, _]| vec![stacker, 0x1000])
    }),
    fault(Read, "an open final refused for good", Answers(3, 4), |it| {
        let last = it.case.word.last_chunk();
        let does = last.is_some_and(|&[head, _, last]| is_independent(head) && last == 0x1039);
        it.refuse_if(it.tag() == 4 && does, 3, it.case.word.len().saturating_sub(1))
    }),
    fault(Read, "another sign carries a final", Answers(0, 3), |it| {
        let killed =
            |[sign, _, last]: [u16; 3]| matches!(sign, 0x104C | 0x104D | 0x104F) && last == 0x103A;
        instead(it, killed, |[_, letter, killer]| vec![0x104E, letter, killer])
    }),
    fault(Read, "the sign carries nothing", Answers(3, 0), |it| {
        with(it, 0x104F, |[head, _]| head == 0x104E)
    }),
    fault(Read, "a third final", Answers(0, 3), |it| {
        let three =
            |[a, b, c, d, e, f]: [u16; 6]| are_killed([a, b, c, d]) && are_killed([c, d, e, f]);
        instead(it, three, |six| six[..4].to_vec())
    }),
    fault(Read, "a stacked second final", Answers(4, 3), |it| {
        without_first(it, |[letter, last]| is_final_letter(letter) && last == 0x1039)
    }),
    fault(Read, "kinzi for a second final", Answers(4, 3), |it| {
        without_first(it, |kinzi| kinzi == [0x1004, 0x103A, 0x1039])
    }),
    fault(Read, "great sa for a second final", Answers(0, 3), |it| {
        without_first(it, |sa| sa == [0x103F])
    }),
    fault(Read, "a tone between two finals", Answers(0, 3), |it| {
        it.answer_for(with_tones_behind(&it.case.word))
    }),
    fault(Read, "a tone refused behind two finals", Answers(3, 0), |it| {
        let place = place_of(it, |[a, b, c, d, tone]| are_killed([a, b, c, d]) && is_tone(tone));
        it.refuse_at(3, place.map(|place| place + 4))
    }),
    fault(Read, "the same letter refused twice", Answers(3, 0), |it| {
        let place = place_of(it, |four| are_killed(four) && four[0] == four[2]);
        it.refuse_at(3, place.map(|place| place + 3))
    }),
    fault(Read, "an independent vowel without a second final", Answers(3, 0), |it| {
        refuse_two_finals_on(it, is_independent)
    }),
    fault(Read, "the sign without a second final", Answers(3, 0), |it| {
        refuse_two_finals_on(it, |head| head == 0x104E)
    }),
    fault(Read, "a second final for a syllable", Answers(0, 0), |it| {
        let seconds = seconds(it);
        it.change(|count| count[0] += seconds)
    }),
    fault(Call::Part, "a part that ends before the second final", Answers(0, 0), |it| {
        let record = jogcairn::record(&it.case.word, it.room()).unwrap_or(None);
        let has_two = record.is_some_and(|record| record.second_final_letter().is_some());
        it.change(|part| part[1] -= 2 * u64::from(has_two))
    }),
    fault(Spell, "a syllable cut between its finals", Answers(0, 0), |it| {
        let seconds = seconds(it);
        it.change(|lengths| lengths[1] += seconds)
    }),
    fault(Spell, "a second final lost", Answers(0, 0), |it| {
        let seconds = seconds(it);
        it.change(|lengths| lengths[0] -= 2 * seconds)
    }),
    fault(Normalise, "a value written behind the output", Left(0), |it| {
        it.clear_if(it.tag() == 0 && it.case.word.len() > 1, 1, it.room())
    }),
    // Sorted across the second letter, a tone before the first killer goes behind the second.
    fault(Normalise, "a tone sorted across a second final", Answers(5, 3), |it| {
        if let (3, Ok(stored)) = (it.tag(), jogcairn::stored_form(&it.case.word)) {
            it.answer_for(with_tones_behind(&stored));
        }
    }),
    fault(Call::TypedPlace, "equal marks in exchanged order", Answers(0, 0), |it| {
        let twice = place_of(it, |pair| pair == [0x1038, 0x1038]);
        let is_first = twice.is_some() && twice == it.number();
        it.change(|typed| typed[0] += u64::from(is_first))
    }),
    fault(Call::Compare, "a refused second word said of the first", Answers(2, 2), |it| {
        it.say_of_first(2)
    }),
    fault(Call::Decode, "a panic", Answers(PANIC, 0), |it| assert!(it.case.bytes.len() < 4)),
    fault(BookCheck, "an independent vowel with a final refused", Answers(11, 0), |it| {
        refuse_book(it, |head, record| is_independent(head) && record.bytes()[4] > 0)
    }),
    fault(BookCheck, "two finals refused", Answers(11, 0), |it| {
        refuse_book(it, |_, record| record.second_final_letter().is_some())
    }),
];

fn is_tone(value: u16) -> bool {
    matches!(value, 0x1037 | 0x1038)
}

fn is_vowel_mark(value: u16) -> bool {
    matches!(value, 0x102B..=0x1032 | 0x1036)
}

fn is_final_letter(value: u16) -> bool {
    matches!(value, 0x1000..=0x1020)
}

/// Whether the values are two letters with a killer each.
fn are_killed([first, killer, second, last]: [u16; 4]) -> bool {
    is_final_letter(first) && is_final_letter(second) && [killer, last] == [0x103A; 2]
}

/// Where the first stretch of so many values stands that fits.
fn place_of<const N: usize>(it: &Made, fits: fn([u16; N]) -> bool) -> Option<usize> {
    it.case.word.windows(N).position(|values| fits(values.try_into().expect("so many")))
}

/// Reads the word with a value in place of each that fits, together with the one behind it.
fn with(it: &mut Made, by: u16, fits: fn([u16; 2]) -> bool) {
    let mut word = it.case.word.clone();
    for place in 1..word.len() {
        if fits([word[place - 1], word[place]]) {
            word[place - 1] = by;
        }
    }
    it.answer_for(word);
}

/// Reads the word with other values for the first stretch that fits.
fn instead<const N: usize>(
    it: &mut Made,
    fits: fn([u16; N]) -> bool,
    by: fn([u16; N]) -> Vec<u16>,
) {
    if let Some(place) = place_of(it, fits) {
        let (before, rest) = it.case.word.split_at(place);
        let (values, behind) = rest.split_first_chunk().expect("so many values");
        it.answer_for([before, &by(*values), behind].concat());
    }
}

/// Reads the word without a plain final, where such values stand behind it.
fn without_first<const N: usize>(it: &mut Made, behind: fn([u16; N]) -> bool) {
    let word = &it.case.word;
    let is_closed = |row| {
        let last = jogcairn::read(row).ok().and_then(Iterator::last).map(|last| last.record);
        last.is_some_and(|last| last.link() == Some(Link::Plain) && last.tone() == 0)
    };
    let fits = |end: usize| word[end..].first_chunk().is_some_and(|values| behind(*values));
    if let Some(end) = (2..word.len()).find(|&end| fits(end) && is_closed(&word[..end])) {
        it.answer_for([&word[..end - 2], &word[end..]].concat());
    }
}

/// The word with each tone between two finals behind the second.
fn with_tones_behind(word: &[u16]) -> Vec<u16> {
    let mut word = word.to_vec();
    for place in 4..word.len() {
        let five = &mut word[place - 4..=place];
        if is_tone(five[2]) && are_killed([five[0], five[1], five[3], five[4]]) {
            five[2..].rotate_left(1);
        }
    }
    word
}

/// Refuses words in which two finals stand on such a head.
fn refuse_two_finals_on(it: &mut Made, is_head: fn(u16) -> bool) {
    let mut place = 0;
    for syllable in jogcairn::read(&it.case.word).into_iter().flatten() {
        let does = is_head(syllable.part[0]) && syllable.record.second_final_letter().is_some();
        it.refuse_if(does && it.tag() == 0, 3, place + 4);
        place += syllable.part.len();
    }
}

/// How many syllables of the word have two finals.
fn seconds(it: &Made) -> u64 {
    let read = jogcairn::read(&it.case.word).into_iter().flatten();
    read.filter(|syllable| syllable.record.second_final_letter().is_some()).count() as u64
}

/// Refuses books with a word that has such a head and record in it.
fn refuse_book(it: &mut Made, is_wrong: fn(u16, Record) -> bool) {
    let mut start = 0;
    while it.tag() == 0 {
        let Ok(Some((word, _))) = jogcairn::book::word_at(&it.case.bytes, start) else { return };
        let mut read = jogcairn::read(&word).expect("a stored word");
        it.refuse_if(read.any(|syllable| is_wrong(syllable.part[0], syllable.record)), 11, start);
        start += BOOK_RECORD_HEAD + word.len();
    }
}
