//! The program `labels` answers each line before it is given the next, as the other implementation
//! does.

mod talking;

use oracle::program::Program;
use talking::{talk_with, Exchange};

/// The examples with what the other implementation prints for them.
fn lines() -> Vec<Exchange> {
    let lists = oracle::lists::all(Program::Labels);
    let examples = lists.iter().find(|list| list.name == "examples").unwrap();
    let lines = examples.input.strip_suffix(b"\n").unwrap().split(|&byte| byte == b'\n');
    let printed = String::from_utf8(examples.expected(Program::Labels)).unwrap();
    let answers = printed.split_inclusive('\n').map(String::from);
    lines.map(<[u8]>::to_vec).zip(answers).collect()
}

/// A last line, with a letter that becomes two values behind a digit that may stand there.
#[test]
fn labels_answers_each_line_before_the_next() {
    let lines = lines();
    let answer = format!("{} OK 101D-1041-101E-103C-1007-102C\n", lines.len() + 1);
    talk_with("labels", &lines, &("၀၁ဩဇာ".as_bytes().to_vec(), answer));
}
