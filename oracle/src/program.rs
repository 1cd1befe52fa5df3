//! Document 01, "The program `wordlist`", and the program `labels`, which reads and answers
//! its lines in the same way.

use crate::collation::{key, Key};
use crate::labels::skeleton;
use crate::line::decode;
use crate::refusal::Refusal;
use crate::word::Word;
use std::io::{self, BufRead, BufWriter, Write};

/// A program that answers lines.
#[derive(Clone, Copy, Debug, PartialEq, Eq)]
pub enum Program {
    /// Prints the syllables and the key of each word.
    Wordlist,
    /// Prints the skeleton of each label.
    Labels,
}

impl Program {
    /// All programs.
    pub const ALL: [Program; 2] = [Program::Wordlist, Program::Labels];

    /// Its name.
    pub const fn name(self) -> &'static str {
        match self {
            Program::Wordlist => "wordlist",
            Program::Labels => "labels",
        }
    }

    /// Answers every line of an input.
    pub fn run(self, input: impl BufRead, output: impl Write) -> io::Result<()> {
        match self {
            Program::Wordlist => answer_lines(input, output, |word| key(word), write_key),
            Program::Labels => answer_lines(input, output, |word| skeleton(word), write_skeleton),
        }
    }

    /// Answers every line of standard input on standard output.
    pub fn run_on_standard_streams(self) -> io::Result<()> {
        let output = BufWriter::with_capacity(1 << 16, io::stdout().lock());
        self.run(io::stdin().lock(), output)
    }
}

/// "It reads UTF-8 lines from standard input, ended by byte 0A; a last line without it
/// counts if it has a byte." Each gets its answer, in order: "line number from 1, OK, …; or
/// line number, NO, refusal number, place", "with one space between fields and 0A at the
/// end". What stands behind OK is put there by `write`.
fn answer_lines<A, W: Write>(
    mut input: impl BufRead,
    mut output: W,
    answer: fn(&Word) -> Result<A, Refusal>,
    write: fn(A, &mut W) -> io::Result<()>,
) -> io::Result<()> {
    let mut line = Vec::new();
    let mut number = 0_u64;
    while input.read_until(b'\n', &mut line)? > 0 {
        number += 1;
        match decode(line.strip_suffix(b"\n").unwrap_or(&line)).and_then(|word| answer(&word)) {
            Ok(answer) => {
                write!(output, "{number} OK ")?;
                write(answer, &mut output)?;
                output.write_all(b"\n")?;
            }
            Err(Refusal { number: refusal, place }) => {
                writeln!(output, "{number} NO {refusal} {place}")?;
            }
        }
        line.clear();
    }
    output.flush()
}

/// "syllable count, key in upper-case hexadecimal with hyphens between syllables (one
/// hyphen for none)".
fn write_key(key: Key, output: &mut impl Write) -> io::Result<()> {
    write!(output, "{} ", key.count())?;
    write_digits(key.row(), output)
}

/// The values in the same way, each as two bytes.
fn write_skeleton(skeleton: Vec<u16>, output: &mut impl Write) -> io::Result<()> {
    let values: Vec<[u8; 2]> = skeleton.iter().map(|value| value.to_be_bytes()).collect();
    write_digits(&values, output)
}

/// Items in upper-case hexadecimal with hyphens between them, or one hyphen for none.
fn write_digits<const SIZE: usize>(
    items: &[[u8; SIZE]],
    output: &mut impl Write,
) -> io::Result<()> {
    const DIGITS: &[u8; 16] = b"0123456789ABCDEF";
    if items.is_empty() {
        return output.write_all(b"-");
    }
    // Two digits a byte, and a hyphen before the next item.
    let item_length = 2 * SIZE + 1;
    let mut text = vec![b'-'; items.len() * item_length];
    for (place, item) in text.chunks_exact_mut(item_length).zip(items) {
        for (digits, &byte) in place.chunks_exact_mut(2).zip(item) {
            digits[0] = DIGITS[usize::from(byte >> 4)];
            digits[1] = DIGITS[usize::from(byte & 15)];
        }
    }
    output.write_all(&text[..text.len() - 1])
}
