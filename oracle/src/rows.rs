//! Document 01, "A row of syllables": which lists are rows, and which beginnings
//! can become one.
//!
//! Both questions are answered over all ways to cut a list into writings of the
//! formula, none preferred: from the end for the number of ways, from the start
//! for the longest beginning.

use crate::formula::{beginning_like, empty};
use crate::limits::WORD_LIMIT;
use crate::reading::Reading;
use crate::refusal::Refusal;
use crate::syllable::{Piece, Writing};

/// Something for each place of a list, its end included, and each piece that may
/// stand there.
type Table<T> = [[T; Piece::ALL.len()]; WORD_LIMIT + 1];

/// In how many ways the values from a place on, begun by a piece, end a row.
/// Counted from the end: a way is a writing that stands there, and then a way for
/// what comes after it.
fn count_ways(list: &[u16]) -> Table<u8> {
    let mut ways: Table<u8> = [[0; Piece::ALL.len()]; WORD_LIMIT + 1];
    ways[list.len()][Piece::Head as usize] = 1;
    for place in (0..=list.len()).rev() {
        let mut add = |writing: &Writing| {
            let more = ways[place + writing.values().len()][writing.then as usize];
            let sum = &mut ways[place][writing.piece as usize];
            *sum = sum.saturating_add(more);
        };
        let rest = &list[place..];
        beginning_like(rest).iter().filter(|writing| writing.begins(rest)).for_each(&mut add);
        // From the last: each leads to a piece at this same place, which must be counted.
        empty().iter().rev().for_each(&mut add);
    }
    ways
}

/// "a list is a row of syllables when some row gives it": that row, if any.
///
/// # Panics
/// If two rows give the list, since the formula would then be no reading, or if
/// the list passes the limit of a word.
pub fn row_of(list: &[u16]) -> Option<Reading> {
    let ways = count_ways(list);
    match ways[0][Piece::Head as usize] {
        0 => None,
        1 => Some(follow(list, &ways)),
        _ => panic!("two rows of syllables give {list:04X?}"),
    }
}

/// Follows the only way through the list and notes each syllable on it.
fn follow(list: &[u16], ways: &Table<u8>) -> Reading {
    let mut reading = Reading::empty();
    let (mut place, mut piece) = (0, Piece::Head);
    while place < list.len() || piece != Piece::Head {
        if piece.begins_syllable() {
            reading.begin_syllable(place);
        }
        let rest = &list[place..];
        let writing = beginning_like(rest)
            .iter()
            .chain(empty())
            .filter(|writing| writing.piece == piece && writing.begins(rest))
            .find(|writing| ways[place + writing.values().len()][writing.then as usize] == 1)
            .expect("a counted way goes on");
        reading.add_to_last(&writing.record);
        place += writing.values().len();
        piece = writing.then;
    }
    reading
}

/// "length of the longest beginning that some continuation makes into one".
///
/// In a row that begins so, the beginning ends inside or at the end of some
/// writing, after whole writings. In turn whatever is reached by whole writings
/// and a first part of one more can be completed: a head by any of its letters,
/// every other piece by leaving it out.
pub fn longest_viable_beginning(list: &[u16]) -> usize {
    let mut reached: Table<bool> = [[false; Piece::ALL.len()]; WORD_LIMIT + 1];
    reached[0][Piece::Head as usize] = true;
    let mut longest = 0;
    for place in 0..=list.len() {
        let rest = &list[place..];
        for writing in empty().iter().chain(beginning_like(rest)) {
            if reached[place][writing.piece as usize] {
                let end = place + writing.shared_with(rest);
                longest = longest.max(end);
                if writing.begins(rest) {
                    reached[end][writing.then as usize] = true;
                }
            }
        }
    }
    longest
}

/// The row that gives the list, or refusal 3 or 4.
pub fn row_or_refusal(list: &[u16]) -> Result<Reading, Refusal> {
    row_of(list).ok_or_else(|| {
        let longest = longest_viable_beginning(list);
        if longest < list.len() {
            Refusal::not_viable(longest)
        } else {
            Refusal::unfinished(longest)
        }
    })
}
