//! Giving a program one line after the other, each when the one before is answered.

use std::io::{BufRead, BufReader, Read, Write};
use std::path::{Path, PathBuf};
use std::process::{Child, ChildStdin, Command, Stdio};
use std::sync::mpsc::{channel, Receiver, RecvTimeoutError, Sender};
use std::thread;
use std::time::Duration;

/// How long an answer may take before the program counts as one that gives none.
pub const PATIENCE: Duration = Duration::from_secs(20);

/// How long nothing must be printed for a line that is still open.
const SILENCE: Duration = Duration::from_millis(200);

/// A line without what ends it, and its answer.
pub type Exchange = (Vec<u8>, String);

/// A program that runs, until it is dropped.
struct Talk {
    child: Child,
    input: Option<ChildStdin>,
    printed: Receiver<String>,
    patience: Duration,
}

impl Drop for Talk {
    fn drop(&mut self) {
        // The program may have ended by itself, which is no failure.
        let _ = self.child.kill();
        let _ = self.child.wait();
    }
}

/// Sends each line of an output, up to its end.
fn listen(output: impl Read, lines: &Sender<String>) {
    let mut output = BufReader::new(output);
    let mut line = Vec::new();
    while output.read_until(b'\n', &mut line).is_ok_and(|count| count > 0) {
        if lines.send(String::from_utf8_lossy(&line).into_owned()).is_err() {
            return;
        }
        line.clear();
    }
}

impl Talk {
    fn begin(mut program: Command, patience: Duration) -> Talk {
        let mut child = program.stdin(Stdio::piped()).stdout(Stdio::piped()).spawn().unwrap();
        let (input, output) = (child.stdin.take(), child.stdout.take().unwrap());
        let (sender, printed) = channel();
        thread::spawn(move || listen(output, &sender));
        Talk { child, input, printed, patience }
    }

    fn say(&mut self, text: &[u8]) -> Result<(), String> {
        let mut input = self.input.as_ref().unwrap();
        input.write_all(text).map_err(|error| format!("the input is not taken: {error}"))
    }

    /// Waits for the answer to a line.
    fn hear(&self, number: usize, expected: &str) -> Result<(), String> {
        let input = if self.input.is_some() { "still open" } else { "closed" };
        match self.printed.recv_timeout(self.patience) {
            Ok(printed) if printed == expected => Ok(()),
            Ok(printed) => Err(format!("line {number} is answered {printed:?}, not {expected:?}")),
            Err(RecvTimeoutError::Timeout) => Err(format!(
                "no answer to line {number} within {:?}, with the input {input}",
                self.patience
            )),
            Err(RecvTimeoutError::Disconnected) => {
                Err(format!("the output ended before the answer to line {number}"))
            }
        }
    }

    /// Waits for nothing: the open line has no answer yet.
    fn hear_nothing(&self) -> Result<(), String> {
        match self.printed.recv_timeout(SILENCE) {
            Err(RecvTimeoutError::Timeout) => Ok(()),
            Ok(printed) => Err(format!("{printed:?} is printed for a line that is still open")),
            Err(RecvTimeoutError::Disconnected) => Err("the output ended on an open line".into()),
        }
    }

    /// Waits for the end of the output.
    fn hear_the_end(&self) -> Result<(), String> {
        match self.printed.recv_timeout(self.patience) {
            Err(RecvTimeoutError::Disconnected) => Ok(()),
            Ok(printed) => Err(format!("{printed:?} is printed behind the last answer")),
            Err(RecvTimeoutError::Timeout) => {
                Err(format!("the output did not end within {:?}", self.patience))
            }
        }
    }
}

/// Gives a program one line after the other, and then a last one that only the end of the input
/// ends. Whatever comes of it, the program is killed at the end.
pub fn talk(
    program: Command,
    lines: &[Exchange],
    last: &Exchange,
    patience: Duration,
) -> Result<(), String> {
    let mut talk = Talk::begin(program, patience);
    for ((line, answer), number) in lines.iter().zip(1..) {
        talk.say(&[line, &b"\n"[..]].concat())?;
        talk.hear(number, answer)?;
    }
    // The last line comes in two parts, with a letter of three bytes cut between them.
    let (front, back) = last.0.split_at(4);
    for part in [front, back] {
        talk.say(part)?;
        talk.hear_nothing()?;
    }
    talk.input = None;
    talk.hear(lines.len() + 1, &last.1)?;
    talk.hear_the_end()
}

/// Where a program of the repository stands.
pub fn program(name: &str) -> PathBuf {
    let program = Path::new(env!("CARGO_MANIFEST_DIR")).join("../target/bin").join(name);
    assert!(
        program.is_file(),
        "the program target/bin/{name} is missing; `scripts/prove {name}`, run at the top of the \
         repository, proves and builds it"
    );
    program
}

/// Talks with a program of the repository.
pub fn talk_with(name: &str, lines: &[Exchange], last: &Exchange) {
    if let Err(failure) = talk(Command::new(program(name)), lines, last, PATIENCE) {
        panic!("target/bin/{name}: {failure}");
    }
}
