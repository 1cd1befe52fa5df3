//! Calls played one after the other, each noted with what must be printed for it.

use crate::book::{self, Added, Entry};
use crate::limits::{BOOK_LIMIT, BOOK_RECORD_HEAD};
use crate::random::Random;
use crate::refusal::Refusal;
use std::collections::BTreeMap;
use std::fmt::Write;

/// The bytes of the array whose front is the book: enough for one that is too long.
pub const ARRAY_SIZE: usize = BOOK_LIMIT + 16;

/// A call on a book, or a change of the array around it.
#[derive(Clone, Debug)]
pub enum Call {
    /// Only zeros in the array, of which the first so many bytes are lent.
    New(usize),
    /// One byte of the array.
    Poke(usize, u8),
    /// Whether the lent bytes are a book.
    Check,
    /// A word and its stock number.
    Add(Vec<u16>, u32),
    /// A word and its stock number, to be told what add would do.
    Preview(Vec<u16>, u32),
    /// A word.
    Remove(Vec<u16>),
    /// A word.
    Find(Vec<u16>),
    /// A query, and the room for the starts of the records that continue it.
    FindPrefix(Vec<u16>, usize),
    /// A number of live records.
    Rank(u32),
    /// The room for the starts of all live records.
    Order(usize),
    /// Where a record starts, and the room for its word.
    Word(usize, usize),
    /// The live records at the front, then zeros.
    Tidy,
}

impl Call {
    /// The name by which its answers are counted, and the line that asks for it.
    fn name_and_line(&self) -> (&'static str, String) {
        match self {
            Call::New(length) => ("new", format!("{length:X}n")),
            Call::Poke(place, byte) => ("poke", format!("{place:X} {byte:X}p")),
            Call::Check => ("check", String::from("c")),
            Call::Add(word, stock) => ("add", format!("{}{stock:X}a", values(word))),
            Call::Preview(word, stock) => ("preview", format!("{}{stock:X}v", values(word))),
            Call::Remove(word) => ("remove", format!("{}r", values(word))),
            Call::Find(word) => ("find", format!("{}f", values(word))),
            Call::FindPrefix(query, room) => ("find prefix", format!("{}{room:X}b", values(query))),
            Call::Rank(rank) => ("rank", format!("{rank:X}k")),
            Call::Order(room) => ("order", format!("{room:X}o")),
            Call::Word(start, room) => ("word", format!("{start:X} {room:X}w")),
            Call::Tidy => ("tidy", String::from("t")),
        }
    }

    /// The room of its output; none where it has no output.
    pub fn room(&self) -> usize {
        match self {
            Call::FindPrefix(_, room) | Call::Order(room) | Call::Word(_, room) => *room,
            _ => 0,
        }
    }
}

/// What stands in an output before a call.
pub const BLANK: u16 = 0xA5A5;

/// Two numbers, the second 0 where a call gives only one; or a refusal. Add gives the
/// start and 1 where it tidied, else 0, and a preview what add would give. The word of
/// a record has the number of its values, with 256 more where the record is live and 0
/// where there is none, and the stock number.
pub type Answer = Result<(usize, u32), Refusal>;

/// Adds a word with a stock number, perhaps after other calls.
pub type Adding = fn(&mut Play, &[u16], u32) -> Answer;

/// The calls so far, what must be printed for them, and the array as they left it.
pub struct Play {
    /// The calls as text.
    pub input: String,
    /// What must be printed.
    pub expected: String,
    /// How many answers of each kind came from each scene.
    pub counts: BTreeMap<(&'static str, String), usize>,
    scene: &'static str,
    array: Vec<u8>,
    length: usize,
}

impl Play {
    /// Nothing played yet.
    pub fn new() -> Play {
        Play {
            input: String::new(),
            expected: String::new(),
            counts: BTreeMap::new(),
            scene: "",
            array: vec![0; ARRAY_SIZE],
            length: 0,
        }
    }

    /// Plays a scene, with random numbers of its own.
    pub fn scene(&mut self, name: &'static str, play: fn(&mut Play, &mut Random)) {
        self.scene = name;
        play(self, &mut Random::of(name));
    }

    /// A book of zeros; the bytes behind it are not.
    pub fn new_book(&mut self, length: usize) {
        self.note(&Call::New(length));
        self.array.fill(0);
        self.length = length;
        for (place, byte) in [(length, 0x4D), (length + 1, 0x57), (ARRAY_SIZE - 1, 0xA5)] {
            if (length..ARRAY_SIZE).contains(&place) {
                self.poke(place, byte);
            }
        }
    }

    /// Changes a byte.
    pub fn poke(&mut self, place: usize, byte: u8) {
        self.note(&Call::Poke(place, byte));
        self.array[place] = byte;
    }

    /// Changes bytes from a place on.
    pub fn poke_all(&mut self, place: usize, bytes: &[u8]) {
        for (next, &byte) in bytes.iter().enumerate() {
            self.poke(place + next, byte);
        }
    }

    /// A byte as it is.
    pub fn byte(&self, place: usize) -> u8 {
        self.array[place]
    }

    /// Where the records of the book start, live or not.
    pub fn starts(&self) -> Vec<usize> {
        let mut starts = Vec::new();
        let mut next = 0;
        while next < self.length && self.byte(next) != 0 {
            starts.push(next);
            next += BOOK_RECORD_HEAD + usize::from(self.byte(next + 2));
        }
        starts
    }

    /// Plays a call on the book.
    pub fn check(&mut self) -> Answer {
        let answer = book::check(&self.array[..self.length]).map(|live| (live, 0));
        self.told(Call::Check, answer)
    }

    /// Plays a call on the book.
    pub fn add(&mut self, word: &[u16], stock: u32) -> Answer {
        let added = book::add(&mut self.array[..self.length], word, stock);
        self.told(Call::Add(word.to_vec(), stock), added.map(start_and_whether))
    }

    /// Plays a call on the book. What it tells beside the answer of add stands in its
    /// output: the start, and 1 where add would tidy, else 0.
    pub fn preview(&mut self, word: &[u16], stock: u32) -> Answer {
        let preview = book::preview(&self.array[..self.length], word, stock);
        let output = [preview.start as u16, u16::from(preview.tidies)];
        let call = Call::Preview(word.to_vec(), stock);
        self.told_with(call, preview.answer.map(start_and_whether), &output)
    }

    /// Plays a call on the book.
    pub fn remove(&mut self, word: &[u16]) -> Answer {
        let start = book::remove(&mut self.array[..self.length], word);
        self.told(Call::Remove(word.to_vec()), start.map(|start| (start, 0)))
    }

    /// Plays a call on the book.
    pub fn find(&mut self, word: &[u16]) -> Answer {
        let entry = book::find(&self.array[..self.length], word);
        self.told(Call::Find(word.to_vec()), entry.map(pair))
    }

    /// Plays a call on the book.
    pub fn find_prefix(&mut self, query: &[u16], room: usize) -> Answer {
        let mut output = vec![BLANK; room];
        let count = book::find_prefix(&self.array[..self.length], query, &mut output);
        let call = Call::FindPrefix(query.to_vec(), room);
        self.told_with(call, count.map(|count| (count, 0)), &output)
    }

    /// Plays a call on the book.
    pub fn rank(&mut self, rank: u32) -> Answer {
        let entry = book::rank(&self.array[..self.length], rank as usize);
        self.told(Call::Rank(rank), entry.map(pair))
    }

    /// Plays a call on the book.
    pub fn order(&mut self, room: usize) -> Answer {
        let mut output = vec![BLANK; room];
        let count = book::order(&self.array[..self.length], &mut output);
        self.told_with(Call::Order(room), count.map(|count| (count, 0)), &output)
    }

    /// Plays a call on the book.
    pub fn word(&mut self, start: usize, room: usize) -> Answer {
        let mut output = vec![BLANK; room];
        let told = book::word_at(&self.array[..self.length], start, &mut output);
        let numbers = told.map(|told| match told {
            Some(told) => (told.count + 256 * usize::from(told.live), told.stock),
            None => (0, 0),
        });
        self.told_with(Call::Word(start, room), numbers, &output)
    }

    /// Plays a call on the book.
    pub fn tidy(&mut self) -> Answer {
        let live_length = book::tidy(&mut self.array[..self.length]);
        self.told(Call::Tidy, live_length.map(|live_length| (live_length, 0)))
    }

    fn told(&mut self, call: Call, answer: Answer) -> Answer {
        self.told_with(call, answer, &[])
    }

    /// The answer of a call, with what it left in its output.
    fn told_with(&mut self, call: Call, answer: Answer, output: &[u16]) -> Answer {
        self.note(&call);
        let (verdict, first, second) = match answer {
            Ok((first, second)) => ("OK", first, u64::from(second)),
            Err(refusal) => ("NO", usize::from(refusal.number), refusal.place as u64),
        };
        let output: Vec<u8> = output.iter().flat_map(|value| value.to_le_bytes()).collect();
        let sum = checksum(&[&self.array, &output[..]].concat());
        writeln!(self.expected, "{verdict} {first} {second} {sum}").expect("memory");
        let kind = match (&call, answer) {
            (Call::Add(..), Ok((_, 1))) => String::from("add OK, tidied"),
            (Call::Preview(..), Ok((_, 1))) => String::from("preview OK, tidies"),
            (_, Ok(_)) => format!("{} OK", call.name_and_line().0),
            (_, Err(refusal)) => format!("{} NO {}", call.name_and_line().0, refusal.number),
        };
        *self.counts.entry((self.scene, kind)).or_default() += 1;
        answer
    }

    fn note(&mut self, call: &Call) {
        self.input.push_str(&call.name_and_line().1);
        self.input.push('\n');
    }
}

impl Default for Play {
    fn default() -> Play {
        Play::new()
    }
}

fn start_and_whether(added: Added) -> (usize, u32) {
    (added.start, u32::from(added.tidied))
}

fn pair(entry: Entry) -> (usize, u32) {
    (entry.start, entry.stock)
}

fn values(word: &[u16]) -> String {
    word.iter().map(|value| format!("{value:X} ")).collect()
}

/// The bytes as digits of a number to the base 16,777,619, whose last 32 bits are
/// the checksum. The base is odd, so a change of one byte always shows.
pub fn checksum(bytes: &[u8]) -> u32 {
    bytes.iter().fold(0, |sum: u32, &byte| sum.wrapping_mul(16_777_619).wrapping_add(byte.into()))
}
