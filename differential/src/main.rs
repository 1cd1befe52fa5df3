//! `differential [--seed N] [--inputs N]`: compares the proved library with the other
//! implementation. Exit status 1 is a difference, 2 a wrong argument.

use differential::{run, Proved, Reference, Report};
use std::process::ExitCode;
use std::time::Instant;

const USAGE: &str = "differential [--seed N] [--inputs N]";
const SEED: u64 = 1;
const INPUTS: usize = 1_000_000;

fn main() -> ExitCode {
    let Some((seed, inputs)) = arguments(std::env::args().skip(1)) else {
        eprintln!("{USAGE}");
        return ExitCode::from(2);
    };
    // A panic is an outcome like others, and is printed with its case.
    std::panic::set_hook(Box::new(|_| {}));
    let begun = Instant::now();
    let (counts, finding) = run(&Proved, &Reference, seed, inputs);
    println!("{}", Report { counts: &counts, finding: finding.as_ref() });
    println!("seed {seed}, {:.1} seconds", begun.elapsed().as_secs_f64());
    ExitCode::from(u8::from(finding.is_some()))
}

/// Seed and number of inputs.
fn arguments(mut arguments: impl Iterator<Item = String>) -> Option<(u64, usize)> {
    let (mut seed, mut inputs) = (SEED, INPUTS);
    while let Some(name) = arguments.next() {
        let value = arguments.next()?;
        match name.as_str() {
            "--seed" => seed = value.parse().ok()?,
            "--inputs" => inputs = value.parse().ok()?,
            _ => return None,
        }
    }
    Some((seed, inputs))
}
