//! The stored calls on word books, played in their order through the proved library. Every answer
//! must be the stored one, byte for byte, and so must a checksum of the whole array, of which the
//! book is only the front, and of what the call left in its output: a byte changed behind the book
//! shows too.

mod playing;

use jogcairn::Book;
use oracle::calls::{Call, Play, BLANK};
use playing::{play, proved, Answer, Array, ANSWERS, CALLS};

/// A player of one call; a change of the array has no answer.
type Library = fn(&Call, &mut Array) -> Option<Answer>;

#[test]
fn every_stored_call_is_answered_as_stored() {
    let count = play(CALLS, ANSWERS, proved).unwrap_or_else(|difference| panic!("{difference}"));
    assert!(count >= 5_000, "{count} answers");
}

/// A few calls: the answers are in the lines 1 to 6, their calls in the lines 5 to 10.
fn few() -> Play {
    let mut play = Play::new();
    play.new_book(16);
    play.check().unwrap();
    play.add(&[0x1000], 7).unwrap();
    play.find(&[0x1000]).unwrap();
    play.rank(1).unwrap_err();
    play.remove(&[0x1000]).unwrap();
    play.remove(&[0x1000]).unwrap_err();
    play
}

#[test]
fn a_wrong_byte_of_an_answer_is_reported_with_its_line() {
    let Play { input, expected, .. } = few();
    assert_eq!(play(&input, &expected, proved), Ok(6));
    for place in 0..expected.len() {
        let mut wrong = expected.clone();
        wrong.replace_range(place..place + 1, "?");
        let line = 1 + expected[..place].matches('\n').count();
        let difference = play(&input, &wrong, proved).unwrap_err();
        assert!(difference.starts_with(&format!("answers, line {line}: ")), "{difference}");
    }
}

#[test]
fn a_wrong_answer_at_the_end_of_the_stored_ones_is_reported() {
    let (before, last) = ANSWERS.trim_end().rsplit_once('\n').unwrap();
    let difference = play(CALLS, &format!("{before}\n{last}0\n"), proved).unwrap_err();
    let line = ANSWERS.lines().count();
    let told =
        format!("answers, line {line}: \"{last}0\\n\" is stored, and \"{last}\\n\" is printed");
    assert!(difference.starts_with(&told), "{difference}");
}

#[test]
fn an_answer_too_few_and_one_too_many_are_reported() {
    let Play { input, expected, .. } = few();
    let fewer = &expected[..expected.trim_end().rfind('\n').unwrap() + 1];
    let difference = play(&input, fewer, proved).unwrap_err();
    assert!(difference.starts_with("answers, line 6: \"\" is stored"), "{difference}");
    let difference = play(&input, &(expected + "OK 0 0 0\n"), proved).unwrap_err();
    assert_eq!(difference, "answers, line 7: no call prints \"OK 0 0 0\\n\"");
}

#[test]
fn a_byte_changed_behind_the_book_is_reported() {
    let behind: Library = |call, array| {
        let answer = proved(call, array);
        if let Call::Add(..) = call {
            array.bytes[array.lent] ^= 1;
        }
        answer
    };
    let Play { input, expected, .. } = few();
    let difference = play(&input, &expected, behind).unwrap_err();
    assert!(difference.starts_with("answers, line 2: \"OK 0 0 "), "{difference}");
    assert!(difference.contains("and \"OK 0 0 "), "{difference}");
    assert!(difference.ends_with("for \"1000 7a\", line 6 of the calls"), "{difference}");
    assert!(play(CALLS, ANSWERS, behind).is_err());
}

#[test]
fn starts_in_their_own_order_and_a_lost_value_are_reported() {
    let by_start: Library = |call, array| {
        let answer = proved(call, array);
        if let (Call::Order(_), Some(Ok((count, _)))) = (call, &answer) {
            array.output[..*count].sort_unstable();
        }
        answer
    };
    let last_value_lost: Library = |call, array| {
        let answer = proved(call, array);
        if let (Call::Word(..), Some(Ok((count @ 1.., _)))) = (call, &answer) {
            array.output[count % 256 - 1] = BLANK;
        }
        answer
    };
    let difference = play(CALLS, ANSWERS, by_start).unwrap_err();
    assert!(difference.contains("o\", line "), "{difference}");
    let difference = play(CALLS, ANSWERS, last_value_lost).unwrap_err();
    assert!(difference.contains("w\", line "), "{difference}");
}

#[test]
fn a_search_that_leaves_a_start_out_or_adds_one_is_reported() {
    let first_left_out: Library = |call, array| {
        let answer = proved(call, array);
        match (call, answer) {
            (Call::FindPrefix(..), Some(Ok((count @ 1.., second)))) => {
                array.output[..count].rotate_left(1);
                array.output[count - 1] = BLANK;
                Some(Ok((count - 1, second)))
            }
            (_, answer) => answer,
        }
    };
    let one_more_counted: Library = |call, array| {
        let answer = proved(call, array);
        match (call, answer) {
            (Call::FindPrefix(..), Some(Err(mut refusal))) if refusal.number() == 5 => {
                refusal.place += 1;
                Some(Err(refusal))
            }
            (_, answer) => answer,
        }
    };
    for wrong in [first_left_out, one_more_counted] {
        let difference = play(CALLS, ANSWERS, wrong).unwrap_err();
        assert!(difference.contains("b\", line "), "{difference}");
    }
}

#[test]
fn tidying_untold_and_bytes_left_behind_are_reported() {
    let untold: Library = |call, array| match (call, proved(call, array)) {
        (Call::Add(..), Some(Ok((start, _)))) => Some(Ok((start, 0))),
        (_, answer) => answer,
    };
    let left_behind: Library = |call, array| {
        let before = array.bytes;
        let answer = proved(call, array);
        if let (Call::Tidy, Some(Ok((live_length, _)))) = (call, &answer) {
            array.bytes[*live_length..].copy_from_slice(&before[*live_length..]);
        }
        answer
    };
    let difference = play(CALLS, ANSWERS, untold).unwrap_err();
    assert!(difference.contains("a\", line "), "{difference}");
    let difference = play(CALLS, ANSWERS, left_behind).unwrap_err();
    assert!(difference.contains("t\", line "), "{difference}");
}

/// Tidying that is not told, the place of a refusal for a start, and a preview that adds.
#[test]
fn what_a_preview_tells_or_changes_otherwise_is_reported() {
    let untold: Library = |call, array| {
        let answer = proved(call, array);
        if let Call::Preview(..) = call {
            array.output[1] = 0;
        }
        answer
    };
    let place_for_start: Library = |call, array| {
        let answer = proved(call, array);
        if let (Call::Preview(..), Some(Err(refusal))) = (call, &answer) {
            array.output[0] = refusal.place as u16;
        }
        answer
    };
    let added: Library = |call, array| {
        let answer = proved(call, array);
        if let Call::Preview(word, stock) = call {
            let _ = Book::new(&mut array.bytes[..array.lent]).add(word, *stock);
        }
        answer
    };
    for wrong in [untold, place_for_start, added] {
        let difference = play(CALLS, ANSWERS, wrong).unwrap_err();
        assert!(difference.contains("v\", line "), "{difference}");
    }
}

#[test]
fn a_line_that_is_no_call_is_reported() {
    for line in [
        "", "x", "7c", "1000 7f", "1000 a", "1000  7a", "G 7a", "10000 7a", "100p", "0 100p", "o",
        "0 0o", "0w", "b", "1000 b", "0t", "1000 t", "v", "1000 v",
    ] {
        let difference = play(&format!("c\n{line}\n"), "OK 0 0 0\n", proved).unwrap_err();
        assert_eq!(difference, format!("calls, line 2: {line:?} is no call"));
    }
}
