//! The stored calls on word books, and a player of calls through the proved library.
//!
//! A call is a line: hexadecimal numbers, each but the last with a space behind it, and a letter.
//! `1000 103A 7a` adds the word 1000 103A with the stock number 7.

use jogcairn::book::{find_prefix_into, order_into, word_into};
use jogcairn::{Added, Book, Found, Preview, Refusal, Told};
use oracle::calls::{Call, ARRAY_SIZE, BLANK};

pub const CALLS: &str = include_str!("../../calls/calls");
pub const ANSWERS: &str = include_str!("../../calls/answers");

/// An array with room behind the longest book, how many bytes at its front are the book, and the
/// output of the last call.
pub struct Array {
    pub bytes: [u8; ARRAY_SIZE],
    pub lent: usize,
    pub output: Vec<u16>,
}

impl Array {
    /// Zeros, of which the first so many are lent.
    fn new(lent: usize) -> Array {
        Array { bytes: [0; ARRAY_SIZE], lent, output: Vec::new() }
    }

    /// The bytes as digits of a number to the base 16,777,619, of which the last 32 bits are kept.
    /// The code that made the stored checksums is not asked.
    fn checksum(&self) -> u64 {
        let output = self.output.iter().flat_map(|value| value.to_le_bytes());
        let digits = self.bytes.iter().copied().chain(output).map(u64::from);
        digits.fold(0, |sum, digit| (sum * 16_777_619 + digit) % (1 << 32))
    }
}

/// Two numbers, the second 0 where a call gives only one; or a refusal.
pub type Answer = Result<(usize, u32), Refusal>;

/// Makes a call; a change of the array has no answer.
pub fn proved(call: &Call, array: &mut Array) -> Option<Answer> {
    array.output = vec![BLANK; call.room()];
    let mut book = Book::new(&mut array.bytes[..array.lent]);
    let alone = |number| (number, 0);
    let both = |found: Found| (found.start, found.stock);
    let added = |added: Added| (added.start, u32::from(added.tidied));
    match call {
        Call::New(length) => *array = Array::new(*length),
        Call::Poke(place, byte) => array.bytes[*place] = *byte,
        Call::Check => return Some(book.check().map(alone)),
        Call::Add(word, stock) => return Some(book.add(word, *stock).map(added)),
        Call::Preview(word, stock) => {
            let preview = book.preview(word, *stock);
            array.output = told(&preview).to_vec();
            return Some(preview.answer.map(added));
        }
        Call::Remove(word) => return Some(book.remove(word).map(alone)),
        Call::Tidy => return Some(book.tidy().map(alone)),
        Call::Find(word) => return Some(book.find(word).map(both)),
        Call::FindPrefix(query, _) => {
            return Some(find_prefix_into(book.as_bytes(), query, &mut array.output).map(alone));
        }
        Call::Rank(rank) => return Some(book.rank(*rank as usize).map(both)),
        Call::Order(_) => {
            return Some(order_into(book.as_bytes(), &mut array.output).map(alone));
        }
        Call::Word(start, _) => {
            let told = word_into(book.as_bytes(), *start, &mut array.output);
            return Some(told.map(|told| told.map_or((0, 0), marked)));
        }
    }
    None
}

/// What a preview tells beside the answer of add: the start, and 1 where it would tidy, else 0.
fn told(preview: &Preview) -> [u16; 2] {
    let start = u16::try_from(preview.start).expect("a start in a book");
    [start, u16::from(preview.tidies)]
}

/// How many values a word has, with 256 more where its record is live, and the stock number.
fn marked(told: Told) -> (usize, u32) {
    (told.count + 256 * usize::from(told.live), told.stock)
}

/// The call that a line asks for.
fn call_of(line: &str) -> Option<Call> {
    let (numbers, letter) = line.split_at_checked(line.len().checked_sub(1)?)?;
    let mut numbers: Vec<&str> = numbers.split(' ').collect();
    let last = match numbers.pop()? {
        "" => None,
        digits => Some(u32::from_str_radix(digits, 16).ok()?),
    };
    let values = numbers.into_iter().map(|digits| u16::from_str_radix(digits, 16));
    let values: Vec<u16> = values.collect::<Result<_, _>>().ok()?;
    match (letter, &values[..], last) {
        ("n", [], Some(length)) => Some(Call::New(length as usize)),
        ("p", [place], Some(byte)) => Some(Call::Poke(usize::from(*place), byte.try_into().ok()?)),
        ("c", [], None) => Some(Call::Check),
        ("a", _, Some(stock)) => Some(Call::Add(values, stock)),
        ("v", _, Some(stock)) => Some(Call::Preview(values, stock)),
        ("r", _, None) => Some(Call::Remove(values)),
        ("f", _, None) => Some(Call::Find(values)),
        ("b", _, Some(room)) => Some(Call::FindPrefix(values, room as usize)),
        ("k", [], Some(rank)) => Some(Call::Rank(rank)),
        ("o", [], Some(room)) => Some(Call::Order(room as usize)),
        ("w", [start], Some(room)) => Some(Call::Word(usize::from(*start), room as usize)),
        ("t", [], None) => Some(Call::Tidy),
        _ => None,
    }
}

/// The line that is printed for an answer.
fn printed(answer: Answer, checksum: u64) -> String {
    match answer {
        Ok((first, second)) => format!("OK {first} {second} {checksum}\n"),
        Err(refusal) => format!("NO {} {} {checksum}\n", refusal.number(), refusal.place),
    }
}

/// Plays all calls: how many answers there were, or the first that is not as stored.
pub fn play(
    calls: &str,
    answers: &str,
    mut library: impl FnMut(&Call, &mut Array) -> Option<Answer>,
) -> Result<usize, String> {
    let mut array = Array::new(0);
    let mut stored = answers.split_inclusive('\n');
    let mut count = 0;
    for (line, number) in calls.lines().zip(1..) {
        let Some(call) = call_of(line) else {
            return Err(format!("calls, line {number}: {line:?} is no call"));
        };
        let Some(answer) = library(&call, &mut array) else { continue };
        count += 1;
        let (printed, stored) = (printed(answer, array.checksum()), stored.next().unwrap_or(""));
        if printed != stored {
            return Err(format!(
                "answers, line {count}: {stored:?} is stored, and {printed:?} is printed for \
                 {line:?}, line {number} of the calls"
            ));
        }
    }
    match stored.next() {
        Some(rest) => Err(format!("answers, line {}: no call prints {rest:?}", count + 1)),
        None => Ok(count),
    }
}
