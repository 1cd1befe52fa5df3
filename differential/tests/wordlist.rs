//! The program `wordlist` answers each line before it is given the next, so that somebody can type
//! to it and another program can ask it word by word.

mod talking;

use oracle::program::Program;
use std::io::Write;
use std::process::{Command, Stdio};
use std::time::Duration;
use talking::{program, talk, talk_with, Exchange, PATIENCE};

/// The three lines that document 01 gives with their answers: a word, a refused one, an empty one.
fn lines() -> Vec<Exchange> {
    let lines = [
        ("တက္ကသိုလ်", "1 OK 3 1D0001000000-0D0000000000-2B001D000B00\n"),
        ("က္", "2 NO 3 1\n"),
        ("", "3 OK 0 -\n"),
    ];
    lines.map(exchange).to_vec()
}

/// A last line, whose first syllable has two finals.
fn last() -> Exchange {
    exchange(("ဘတ်စ်ကား", "4 OK 2 250011060000-0D0000000102\n"))
}

fn exchange((line, answer): (&str, &str)) -> Exchange {
    (line.as_bytes().to_vec(), answer.to_string())
}

#[test]
fn wordlist_answers_each_line_before_the_next() {
    talk_with("wordlist", &lines(), &last());
}

#[test]
fn a_program_that_answers_at_the_end_of_its_input_is_found() {
    let patience = Duration::from_millis(300);
    let failure = talk(Command::new("sort"), &lines(), &last(), patience).unwrap_err();
    assert_eq!(failure, "no answer to line 1 within 300ms, with the input still open");
}

#[test]
fn a_program_that_answers_otherwise_is_found() {
    let failure = talk(Command::new("cat"), &lines(), &last(), PATIENCE).unwrap_err();
    assert!(failure.starts_with("line 1 is answered "), "{failure}");
}

/// Whole inputs with what is printed for them: none, one 0A alone, and a last line without it.
const WHOLE: [(&str, &str); 3] = [
    ("", ""),
    ("\n", "1 OK 0 -\n"),
    (
        "မြန်မာ\nစာ\nအင်္ဂလန်",
        "1 OK 2 260215000000-260000000100\n2 OK 1 120000000100\n\
         3 OK 3 2E0005000000-0F0000000000-290015000000\n",
    ),
];

fn printed(input: &str) -> String {
    let mut child = Command::new(program("wordlist"))
        .stdin(Stdio::piped())
        .stdout(Stdio::piped())
        .spawn()
        .unwrap();
    child.stdin.take().unwrap().write_all(input.as_bytes()).unwrap();
    String::from_utf8(child.wait_with_output().unwrap().stdout).unwrap()
}

#[test]
fn wordlist_ends_with_its_input() {
    for (input, expected) in WHOLE {
        assert_eq!(printed(input), expected, "for {input:?}");
        let mut other = Vec::new();
        Program::Wordlist.run(input.as_bytes(), &mut other).unwrap();
        assert_eq!(String::from_utf8(other).unwrap(), expected, "the other, for {input:?}");
    }
}
