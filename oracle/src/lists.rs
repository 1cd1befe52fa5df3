//! Word lists for comparing implementations, and what the programs print for them.

mod carried;
mod changes;
mod finals;
mod label_examples;
mod labels;
mod lines;
mod picked_rows;
mod products;

use crate::program::Program;
use crate::random::Random;

pub use changes::{shuffle_runs, WITH_LETTER_U};
pub use finals::crowded;
pub use label_examples::with_longest_skeleton;
pub use labels::{exchanged, likely_label, long_skeleton};
pub use picked_rows::{random_row, row_of_length, RowUnderWay};

/// One list: an input of a program.
pub struct List {
    /// The kind of its lines; also the name of its files.
    pub name: &'static str,
    /// The bytes for standard input.
    pub input: Vec<u8>,
}

impl List {
    /// What the program must print for the list.
    pub fn expected(&self, program: Program) -> Vec<u8> {
        let mut output = Vec::new();
        program.run(self.input.as_slice(), &mut output).expect("memory takes every byte");
        output
    }

    /// A list of these words.
    fn of_all(name: &'static str, words: impl IntoIterator<Item = Vec<u16>>) -> List {
        List { name, input: join(words.into_iter().map(|word| encode(&word))) }
    }

    /// A list of lines, each of which `make` makes.
    fn of_lines(name: &'static str, count: usize, make: fn(&mut Random) -> Vec<u8>) -> List {
        let mut random = Random::of(name);
        let mut input = Vec::new();
        for _ in 0..count {
            push_line(&mut input, &make(&mut random));
        }
        List { name, input }
    }

    /// A list of words, each of which `make` makes.
    fn of_words(name: &'static str, count: usize, make: fn(&mut Random) -> Vec<u16>) -> List {
        let mut random = Random::of(name);
        let mut input = Vec::new();
        for _ in 0..count {
            push_line(&mut input, &encode(&make(&mut random)));
        }
        List { name, input }
    }
}

/// All lists of a program.
pub fn all(program: Program) -> Vec<List> {
    match program {
        Program::Wordlist => of_wordlist(),
        Program::Labels => of_labels(),
    }
}

fn of_wordlist() -> Vec<List> {
    vec![
        List { name: "program_example", input: PROGRAM_EXAMPLE.as_bytes().to_vec() },
        List { name: "examples", input: join(lines::examples()) },
        List::of_all("products", products::words()),
        List::of_all("carried", carried::words()),
        List::of_all("two_finals", finals::readable()),
        List::of_all("near_two_finals", finals::near()),
        List::of_words("crowded", 500, finals::crowded),
        List::of_words("valid", 2_600, changes::valid),
        List::of_words("long", 300, changes::long),
        List::of_words("shuffled", 2_200, changes::shuffled),
        List::of_words("letter_u", 800, changes::letter_u),
        List::of_words("beginnings", 700, changes::beginning),
        List::of_words("damaged", 2_800, changes::damaged),
        List::of_words("loose_pieces", 1_200, changes::loose_pieces),
        List::of_words("noise", 900, changes::noise),
        List::of_words("foreign", 700, changes::foreign),
        List::of_lines("bytes", 1_100, lines::faulty),
        List::of_lines("limits", 600, lines::near_the_limit),
        List {
            name: "no_final_newline", input: "မြန်မာ\nစာ\nအင်္ဂလန်".as_bytes().to_vec()
        },
        List { name: "no_final_newline_short", input: b"\xE1\x80\x80\n\xE1".to_vec() },
        List { name: "only_newlines", input: b"\n\n\n".to_vec() },
        List { name: "one_newline", input: b"\n".to_vec() },
        List { name: "empty", input: Vec::new() },
    ]
}

fn of_labels() -> Vec<List> {
    vec![
        List { name: "examples", input: join(label_examples::examples()) },
        List::of_all("digits", labels::digits()),
        List::of_all("neighbours", labels::neighbours()),
        List::of_all("stops_and_signs", labels::stops_and_signs()),
        List::of_all("replaced_by_finals", labels::replaced_by_finals()),
        List::of_all("pairs", labels::pairs()),
        List::of_words("likely_labels", 300, labels::likely_label),
        List::of_words("long_skeletons", 100, labels::long_skeleton),
        List::of_words("valid", 150, changes::valid),
        List::of_words("shuffled", 150, changes::shuffled),
        List::of_words("letter_u", 150, changes::letter_u),
        List::of_words("beginnings", 60, changes::beginning),
        List::of_words("damaged", 150, changes::damaged),
        List::of_words("foreign", 80, changes::foreign),
        List::of_lines("bytes", 80, lines::faulty),
        List::of_lines("limits", 120, lines::near_the_limit),
    ]
}

/// "For the three lines တက္ကသိုလ်, က္ and an empty one, all ended by 0A".
const PROGRAM_EXAMPLE: &str = "တက္ကသိုလ်\nက္\n\n";

/// The UTF-8 bytes of values from 0800 on, three each.
pub fn encode(word: &[u16]) -> Vec<u8> {
    let three = |&value: &u16| {
        let six_bits = |shift: u32| 0x80 | (value >> shift & 0x3F) as u8;
        [0xE0 | (value >> 12) as u8, six_bits(6), six_bits(0)]
    };
    word.iter().flat_map(three).collect()
}

fn join(lines: impl Iterator<Item = Vec<u8>>) -> Vec<u8> {
    let mut input = Vec::new();
    for line in lines {
        push_line(&mut input, &line);
    }
    input
}

fn push_line(input: &mut Vec<u8>, line: &[u8]) {
    debug_assert!(!line.contains(&b'\n'));
    input.extend_from_slice(line);
    input.push(b'\n');
}
