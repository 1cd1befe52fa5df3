//! Reads words from standard input, a line each, and prints the key or the
//! refusal of each.

use oracle::program::Program;

fn main() -> std::io::Result<()> {
    Program::Wordlist.run_on_standard_streams()
}
