//! Makes the calls on word books, and what must be printed for them: the files
//! `calls` and `answers` in the folder that is named.

use std::path::Path;
use std::process::ExitCode;
use std::{env, fs, io};

fn main() -> ExitCode {
    let mut arguments = env::args_os().skip(1);
    let (Some(folder), None) = (arguments.next(), arguments.next()) else {
        eprintln!("usage: make_calls FOLDER");
        return ExitCode::FAILURE;
    };
    match make_calls(Path::new(&folder)) {
        Ok(()) => ExitCode::SUCCESS,
        Err(error) => {
            eprintln!("make_calls: {}: {error}", folder.display());
            ExitCode::FAILURE
        }
    }
}

fn make_calls(folder: &Path) -> io::Result<()> {
    fs::create_dir_all(folder)?;
    let play = oracle::calls::all();
    for ((scene, kind), count) in &play.counts {
        println!("{scene:22} {kind:14} {count:6}");
    }
    fs::write(folder.join("calls"), &play.input)?;
    fs::write(folder.join("answers"), &play.expected)
}
