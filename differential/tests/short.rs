//! Every short word and every small book, none left out.

use differential::{difference, Call, Case, Proved, Reference};
use jogcairn::{BOOK_RECORD_HEAD, KEY_SIZE, LABEL_LIMIT, RECORD_SIZE, SKELETON_LIMIT, WORD_LIMIT};
use oracle::lists::with_longest_skeleton;

/// One value or more of each kind: those that the rules name, and one of the others.
const REPRESENTATIVES: [u16; 26] = [
    0x1000, 0x1004, 0x1009, 0x101E, 0x1021, 0x1023, 0x1025, 0x1040, 0x104A, 0x104C, 0x104E, 0x102B,
    0x102C, 0x102D, 0x102E, 0x102F, 0x1031, 0x1036, 0x1037, 0x1038, 0x1039, 0x103A, 0x103B, 0x103C,
    0x103D, 0x103F,
];

/// What finals are made of, a tone, a medial and a vowel mark, and a head of each kind: it carries all
/// of them, finals and tones alone, or nothing.
const MADE_INTO_FINALS: [u16; 12] = [
    0x1000, 0x1004, 0x1009, 0x1025, 0x104C, 0x104E, 0x102E, 0x1038, 0x1039, 0x103A, 0x103B, 0x103F,
];

/// What two finals are made of, a tone, and what comes near to a second final: a stacked one, kinzi,
/// and a head that takes no marks.
const MADE_INTO_TWO_FINALS: [u16; 6] = [0x1000, 0x1004, 0x1025, 0x1038, 0x1039, 0x103A];

/// What decides over a label or its skeleton: digits that may be refused and one that is not, values
/// that are replaced and those that they become, a stop and the sign that carries a final, and what
/// is stored otherwise.
const MADE_INTO_LABELS: [u16; 12] = [
    0x1000, 0x1009, 0x101E, 0x1025, 0x1029, 0x1040, 0x1041, 0x1047, 0x104A, 0x104E, 0x102E, 0x103A,
];

/// Digits, letters that they look like, and letters that are replaced by others.
const THAT_LOOK_ALIKE: [u16; 9] =
    [0x1009, 0x101B, 0x101D, 0x101E, 0x1025, 0x1029, 0x103C, 0x1040, 0x1047];

/// Demands that both libraries have the same outcome.
fn demand_agreement(case: &Case) {
    assert!(difference(&Proved, &Reference, case).is_none(), "{case}");
}

/// Tries each word of so many of the values, with room for whatever is written.
fn try_all(values: &[u16], length: usize, call: Call) {
    try_all_at(values, length, call, [KEY_SIZE, WORD_LIMIT]);
}

/// Tries each word of so many of the values, with these numbers.
fn try_all_at(values: &[u16], length: usize, call: Call, numbers: [usize; 2]) {
    try_all_in(values, length, &Case { numbers, ..Case::of_word(call, Vec::new()) });
}

/// Tries each word of so many of the values, in the case otherwise as given.
fn try_all_in(values: &[u16], length: usize, case: &Case) {
    for_all(values, length, |word| demand_agreement(&Case { word, ..case.clone() }));
}

/// Does something with each word of so many of the values.
fn for_all(values: &[u16], length: usize, mut act: impl FnMut(Vec<u16>)) {
    let mut places = vec![0; length];
    loop {
        act(places.iter().map(|&place| values[place]).collect());
        // The next word: the places count like the digits of a number.
        let Some(digit) = places.iter().rposition(|&place| place + 1 < values.len()) else { break };
        places[digit] += 1;
        places[digit + 1..].fill(0);
    }
}

/// The admitted values, and the foreign ones among and beside them.
fn values() -> Vec<u16> {
    (0x0FFF..=0x1050).collect()
}

#[test]
fn every_word_of_up_to_two_values() {
    let of_words = [Call::Syllables, Call::Spell, Call::Normalise, Call::StoredForm, Call::Key];
    for call in of_words.into_iter().chain([Call::Label, Call::Skeleton]) {
        for length in 0..=2 {
            try_all(&values(), length, call);
        }
    }
}

#[test]
fn every_word_of_three_values() {
    try_all(&values(), 3, Call::Syllables);
    try_all(&values(), 3, Call::Normalise);
    try_all(&values(), 3, Call::Skeleton);
}

#[test]
fn every_word_of_four_representatives() {
    try_all(&REPRESENTATIVES, 4, Call::Syllables);
    try_all(&REPRESENTATIVES, 4, Call::Normalise);
    try_all(&REPRESENTATIVES, 4, Call::StoredForm);
}

/// The shortest word with kinzi has five values.
#[test]
fn every_word_of_five_values_that_are_made_into_finals() {
    for call in [Call::Syllables, Call::Spell, Call::Key] {
        try_all(&MADE_INTO_FINALS, 5, call);
    }
}

/// Seven values hold a third final behind two.
#[test]
fn every_word_of_six_and_seven_values_that_are_made_into_two_finals() {
    for length in 6..=7 {
        for call in [Call::Syllables, Call::Spell, Call::Key] {
            try_all(&MADE_INTO_TWO_FINALS, length, call);
        }
    }
}

/// Five values hold a digit between two others, and letters on both sides of them.
#[test]
fn every_word_of_four_and_five_values_that_are_made_into_labels() {
    for length in 4..=5 {
        for call in [Call::Label, Call::Skeleton] {
            try_all(&MADE_INTO_LABELS, length, call);
        }
    }
}

#[test]
fn every_pair_of_up_to_two_values_that_look_alike() {
    let mut words = Vec::new();
    for length in 0..=2 {
        for_all(&THAT_LOOK_ALIKE, length, |word| words.push(word));
    }
    for (word, second) in words.iter().flat_map(|one| words.iter().map(move |two| (one, two))) {
        let look_alike = Case::of_word(Call::LookAlike, word.clone());
        demand_agreement(&Case { second: second.clone(), ..look_alike });
    }
}

/// Syllables of one value and of two, with a stop or a digit at each place among them or none.
#[test]
fn every_number_of_syllables_with_a_stop_or_a_digit_at_each_place() {
    for syllables in 0..=LABEL_LIMIT + 3 {
        for syllable in [&[0x1000][..], &[0x1029, 0x1038], &[0x1041], &[0x1047]] {
            let word = syllable.repeat(syllables);
            let at_each_place = (0..=word.len()).flat_map(|place| {
                let (before, behind) = word.split_at(place);
                [&[][..], &[0x104B], &[0x1040]].map(|value| [before, value, behind].concat())
            });
            for word in at_each_place {
                demand_agreement(&Case::of_word(Call::Label, word.clone()));
                let skeleton = Case::of_word(Call::Skeleton, word);
                demand_agreement(&Case { numbers: [SKELETON_LIMIT, 0], ..skeleton });
            }
        }
    }
}

#[test]
fn every_room_for_a_skeleton() {
    for word in [with_longest_skeleton(), vec![0x1047; LABEL_LIMIT], vec![0x1029], Vec::new()] {
        for room in 0..=SKELETON_LIMIT + 1 {
            let skeleton = Case::of_word(Call::Skeleton, word.clone());
            demand_agreement(&Case { numbers: [room, 0], ..skeleton });
        }
    }
}

/// Numbers of a final: none, letters, kinzi's and 103F's among them, the last and one beyond.
const FINALS: [u8; 6] = [0, 1, 5, 31, 33, 34];

/// Two numbers of finals with every link and tone, on a head of each kind and before what a link asks
/// for or does not.
#[test]
fn every_record_of_two_finals() {
    let next: [&[u8]; 4] =
        [&[], &[0; RECORD_SIZE], &[0x1E, 0, 0, 0, 0, 0, 0, 0], &[0x25, 0, 0, 0, 1, 1, 1, 2]];
    for head in [0x00, 0x1E, 0x21, 0x25, 0x40, 0x4A, 0x4C, 0x4E] {
        for (first, second) in FINALS.iter().flat_map(|one| FINALS.map(|other| (*one, other))) {
            for (link, tone) in (0..5).flat_map(|link| (0..4).map(move |tone| (link, tone))) {
                for next in next {
                    let record = [head, 0, 0, 0, first, second, link, tone];
                    let write = Case::of_bytes(Call::Write, [&record, next].concat());
                    demand_agreement(&Case { numbers: [WORD_LIMIT, 0], ..write });
                }
            }
        }
    }
}

#[test]
fn every_place_of_every_word_of_up_to_three_values() {
    for place in 0..=3 {
        for length in 0..=3 {
            try_all_at(&REPRESENTATIVES, length, Call::TypedPlace, [place, 0]);
        }
    }
}

/// Words that begin alike in one way or another; each third one is removed.
const BOOKED: [&[u16]; 38] = [
    &[0x1000],
    &[0x1000, 0x1000],
    &[0x1000, 0x1000, 0x1000],
    &[0x1000, 0x1000, 0x103A],
    &[0x1000, 0x1000, 0x103A, 0x1000],
    &[0x1000, 0x1000, 0x1039, 0x1000],
    &[0x1000, 0x1000, 0x1039, 0x1000, 0x102C],
    &[0x1000, 0x1000, 0x103A, 0x1000, 0x103A],
    &[0x1000, 0x1000, 0x103A, 0x1000, 0x103A, 0x1038],
    &[0x1000, 0x1000, 0x103A, 0x1004, 0x103A, 0x1000],
    &[0x1000, 0x1004, 0x103A],
    &[0x1000, 0x1004, 0x103A, 0x1039, 0x1000],
    &[0x1000, 0x1004, 0x103A, 0x1039, 0x101E],
    &[0x1000, 0x101E, 0x103A],
    &[0x1000, 0x101E, 0x1039, 0x101E],
    &[0x1000, 0x103F],
    &[0x1000, 0x103F, 0x103F],
    &[0x1000, 0x102B],
    &[0x1000, 0x102C],
    &[0x1000, 0x102C, 0x1038, 0x1040],
    &[0x1009, 0x103D, 0x104A],
    &[0x101E, 0x102D, 0x102F],
    &[0x1021, 0x102D],
    &[0x1023],
    &[0x1023, 0x1038],
    &[0x1023, 0x103F],
    &[0x1025, 0x104C],
    &[0x1025, 0x1000, 0x103A],
    &[0x1025, 0x1000, 0x1039, 0x1000],
    &[0x1025, 0x1004, 0x103A, 0x1039, 0x1000],
    &[0x1025, 0x1000, 0x103A, 0x1000, 0x103A],
    &[0x1021, 0x102F, 0x1000, 0x103A, 0x1000, 0x103A, 0x1000],
    &[0x1000, 0x102C, 0x1000, 0x103A],
    &[0x1021, 0x102F, 0x1000, 0x103A],
    &[0x1026],
    &[0x1040, 0x1040],
    &[0x104E],
    &[0x104E, 0x1038],
];

fn booked() -> Vec<u8> {
    let mut book = vec![0; BOOKED.iter().map(|word| BOOK_RECORD_HEAD + word.len()).sum()];
    for (word, stock) in BOOKED.into_iter().zip(0..) {
        oracle::book::add(&mut book, word, stock).unwrap();
    }
    for word in BOOKED.iter().skip(2).step_by(3) {
        oracle::book::remove(&mut book, word).unwrap();
    }
    book
}

#[test]
fn every_query_of_up_to_two_values_and_of_three_representatives() {
    let room = [BOOKED.len(), 0];
    let case = Case { numbers: room, ..Case::of_bytes(Call::BookFindPrefix, booked()) };
    for length in 0..=2 {
        try_all_in(&values(), length, &case);
    }
    try_all_in(&REPRESENTATIVES, 3, &case);
    for length in 4..=5 {
        try_all_in(&MADE_INTO_TWO_FINALS, length, &case);
    }
}

/// In a book that has only the room of its removed records, and in a buffer that is no book.
#[test]
fn every_preview_of_up_to_two_values_and_of_three_representatives() {
    let no_book = [&booked()[..], b"M"].concat();
    for book in [booked(), no_book] {
        let case = Case { numbers: [1, 0], ..Case::of_bytes(Call::BookPreview, book) };
        for length in 0..=2 {
            try_all_in(&values(), length, &case);
        }
        try_all_in(&REPRESENTATIVES, 3, &case);
    }
}

#[test]
fn every_room_for_what_a_word_of_the_book_finds() {
    for word in BOOKED {
        for room in 0..=BOOKED.len() {
            let search = Case::of_bytes(Call::BookFindPrefix, booked());
            demand_agreement(&Case { word: word.to_vec(), numbers: [room, 0], ..search });
        }
    }
}

/// The records of every book of up to four, each live or removed and of one or two values.
fn few_records() -> Vec<Vec<u8>> {
    let mut books = vec![Vec::new()];
    let mut longest = books.clone();
    for letter in 0..4 {
        let record = |mark, letters: &[u8]| {
            [&[b'M', mark, letters.len() as u8, letter, 1, 2, 3], letters].concat()
        };
        let records =
            [b'W', b'-'].map(|mark| [record(mark, &[letter]), record(mark, &[letter, 0x2C])]);
        let with_one_more = |book: &Vec<u8>| {
            let records = records.as_flattened().iter();
            records.map(|record| [&book[..], record].concat()).collect::<Vec<_>>()
        };
        longest = longest.iter().flat_map(with_one_more).collect();
        books.extend_from_slice(&longest);
    }
    books
}

/// Words of every length that fits, behind the last record or after tidying, and of one value more;
/// and a word that is live or removed. Each add is previewed too.
#[test]
fn every_small_book_is_tidied_and_added_to() {
    for records in few_records() {
        for free in 0..=9 {
            let book = [&records[..], &vec![0; free]].concat();
            demand_agreement(&Case::of_bytes(Call::BookTidy, book.clone()));
            let add = |word: Vec<u16>| {
                let add = Case::of_bytes(Call::BookAdd, book.clone());
                let add = Case { word, numbers: [0x0403_0201, 0], ..add };
                demand_agreement(&add);
                demand_agreement(&Case { call: Call::BookPreview, ..add });
            };
            let longest = book.len().saturating_sub(BOOK_RECORD_HEAD) + 1;
            (1..=longest).for_each(|length| add(vec![0x1010; length]));
            add(vec![0x1000]);
        }
    }
}
