//! Reads words from standard input, a line each, and prints the skeleton or the
//! refusal of each.

use oracle::program::Program;

fn main() -> std::io::Result<()> {
    Program::Labels.run_on_standard_streams()
}
