//! A preview gives the answer that add gives on a copy of the book, the start of the record and whether
//! the add would tidy; it leaves the book untouched. Both libraries are asked for both calls, before
//! each add that is played or made by chance.

mod playing;

use differential::cases::Cases;
use differential::{Answer, Call, Case, Lent, Library, Proved, Reference};
use oracle::calls::Call as Played;
use playing::{play, proved, ANSWERS, CALLS};
use std::collections::BTreeSet;

/// Document 02: "Where add refuses, the start is 0 and the preview says that it wouldn't tidy."
fn preview_of(add: Answer) -> Answer {
    let (start, tidies) = match &add {
        Answer::Accepted(numbers) => (numbers[0] as usize, numbers[1] == 1),
        _ => (0, false),
    };
    Answer::Previewed { add: Box::new(add), start, tidies }
}

/// Demands that the add is previewed as it is done, by each library, and that the preview leaves book
/// and word as they are. The tag of the add's answer, and whether the book is tidied.
fn demand_preview_of(add: &Case) -> (u8, bool) {
    let preview = Case { call: Call::BookPreview, ..add.clone() };
    let libraries: [&dyn Library; 2] = [&Proved, &Reference];
    for library in libraries {
        let previewed = library.outcome(&preview);
        assert_eq!(previewed.answer, preview_of(library.outcome(add).answer), "{preview}");
        let untouched = [Lent::input(&add.bytes).after(), Lent::input(&add.word).after()];
        assert!(previewed.lent == untouched, "{preview}");
    }
    let answer = Reference.outcome(add).answer;
    let tidied = matches!(&answer, Answer::Accepted(numbers) if numbers[1] == 1);
    (answer.tag().expect("an answer"), tidied)
}

/// Every tag that an add has, and an add that tidies.
fn all_kinds() -> BTreeSet<(u8, bool)> {
    let tags = Call::BookAdd.tags().iter().map(|&tag| (tag, false));
    tags.chain([(0, true)]).collect()
}

#[test]
fn every_played_add_is_previewed() {
    let mut seen = BTreeSet::new();
    let played = play(CALLS, ANSWERS, |call, array| {
        if let Played::Add(word, stock) = call {
            let book = array.bytes[..array.lent].to_vec();
            let add = Case { word: word.clone(), ..Case::of_bytes(Call::BookAdd, book) };
            seen.insert(demand_preview_of(&Case { numbers: [*stock as usize, 0], ..add }));
        }
        proved(call, array)
    });
    assert!(played.is_ok(), "{played:?}");
    assert_eq!(seen, all_kinds());
}

#[test]
fn every_add_by_chance_is_previewed() {
    const INPUTS: usize = 100_000;
    let mut cases = Cases::new(2);
    let mut seen = BTreeSet::new();
    for _ in 0..INPUTS {
        let case = cases.next_case();
        if case.call == Call::BookAdd {
            seen.insert(demand_preview_of(&case));
        }
        if case.call.changes_book() {
            cases.take_note(&case, &Reference.outcome(&case));
        }
    }
    assert_eq!(seen, all_kinds());
}
