//! Books whose removed records go: by tidying, and by adds that have no other room.

use super::fillings::add_until_full;
use super::play::{Adding, Play};
use super::words::{of_length, respelled, short, stock};
use crate::limits::{BOOK_RECORD_HEAD, WORD_LIMIT};
use crate::random::Random;

/// Words of several lengths, which are not added in their order.
const MIXED: [&[u16]; 4] =
    [&[0x1023], &[0x1000, 0x1014, 0x103A, 0x1037], &[0x1000], &[0x1000, 0x102C]];

/// A book of four records, of which none, some or all are removed, each choice once.
/// Tidied, it is put in order, and tidied again.
pub fn tidied(play: &mut Play, random: &mut Random) {
    let records: usize = MIXED.iter().map(|word| BOOK_RECORD_HEAD + word.len()).sum();
    for removed in 0..1 << MIXED.len() {
        play.new_book(records + removed % 3);
        for word in MIXED {
            let _ = play.add(word, stock(random));
        }
        for (number, word) in MIXED.into_iter().enumerate() {
            if removed >> number & 1 == 1 {
                let _ = play.remove(word);
            }
        }
        let _ = play.tidy();
        let _ = play.order(MIXED.len());
        let _ = play.rank(0);
        let _ = play.tidy();
    }
}

/// Books that fill, whose words are then put under other names one by one, and that
/// fill again when half of their words are gone.
pub fn renamings(play: &mut Play, random: &mut Random) {
    for size in [30, 60, 100, 180, 300] {
        play.new_book(size);
        let (mut words, _) = add_until_full(play, random, short, Play::add);
        for _ in 0..10 {
            rename(play, random, &mut words);
        }
        words.retain(|word| random.chance(50) || play.remove(word).is_err());
        if random.chance(50) {
            let _ = play.tidy();
        }
        let (more, _) = add_until_full(play, random, short, Play::add);
        let _ = play.order(words.len() + more.len());
        for word in words.iter().take(3) {
            let _ = play.find(word);
        }
    }
}

/// Removes a word and adds another in its place, for which there may be no room.
fn rename(play: &mut Play, random: &mut Random, words: &mut Vec<Vec<u16>>) {
    if words.is_empty() {
        return;
    }
    let name = words.swap_remove(random.below(words.len()));
    let _ = play.remove(&respelled(random, &name));
    if random.chance(20) {
        let _ = play.tidy();
    }
    let other = short(random);
    if play.add(&respelled(random, &other), stock(random)).is_ok() {
        words.push(other);
    }
    let _ = play.find(&name);
}

/// Books in which a byte decides, with removed records of several lengths.
pub fn by_one_byte(play: &mut Play, random: &mut Random) {
    let longest = BOOK_RECORD_HEAD + WORD_LIMIT;
    for (removed, free) in [(8, 8), (8, 9), (10, 0), (15, 7), (16, 20), (37, 12), (longest, 0)] {
        add_to_the_last_byte(play, random, removed, free, Play::add);
    }
}

/// Words that end at the last byte, behind the last record and after tidying, and such
/// as have one value more: the first goes behind, two tidy, and the last has no room.
pub fn add_to_the_last_byte(
    play: &mut Play,
    random: &mut Random,
    removed: usize,
    free: usize,
    add: Adding,
) {
    let sizes = [free, free + 1, free + removed, free + removed + 1];
    for (size, outcome) in sizes.into_iter().zip([Ok(0), Ok(1), Ok(1), Err(14)]) {
        let length = size.saturating_sub(BOOK_RECORD_HEAD);
        if !(1..=WORD_LIMIT).contains(&length) {
            continue;
        }
        for removed_first in [true, false] {
            half_removed(play, random, removed, free, removed_first);
            let answer = add(play, &of_length(random, length), stock(random));
            let answer = answer.map(|(_, tidied)| tidied).map_err(|refusal| refusal.number);
            assert_eq!(answer, outcome);
            let _ = play.order(2);
        }
    }
}

/// A book of two records, of which the first or the second is so many bytes long and
/// removed, and of so many free bytes.
fn half_removed(
    play: &mut Play,
    random: &mut Random,
    removed: usize,
    free: usize,
    removed_first: bool,
) {
    let kept = [0x1021, 0x102D];
    let gone = of_length(random, removed - BOOK_RECORD_HEAD);
    play.new_book(BOOK_RECORD_HEAD + kept.len() + removed + free);
    let words = if removed_first { [&gone[..], &kept] } else { [&kept, &gone[..]] };
    for word in words {
        let _ = play.add(word, stock(random));
    }
    let _ = play.remove(&gone);
}
