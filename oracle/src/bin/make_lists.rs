//! Makes the word lists: for each kind `NAME.input`, which goes into the program, and
//! `NAME.expected`, which must come out, in a folder of the program's name in the one that
//! is named.

use oracle::program::Program;
use std::path::Path;
use std::process::ExitCode;
use std::{env, fs, io};

fn main() -> ExitCode {
    let mut arguments = env::args_os().skip(1);
    let (Some(folder), None) = (arguments.next(), arguments.next()) else {
        eprintln!("usage: make_lists FOLDER");
        return ExitCode::FAILURE;
    };
    match make_lists(Path::new(&folder)) {
        Ok(()) => ExitCode::SUCCESS,
        Err(error) => {
            eprintln!("make_lists: {}: {error}", folder.display());
            ExitCode::FAILURE
        }
    }
}

fn make_lists(folder: &Path) -> io::Result<()> {
    for program in Program::ALL {
        let folder = folder.join(program.name());
        fs::create_dir_all(&folder)?;
        for list in oracle::lists::all(program) {
            let expected = list.expected(program);
            let lines = expected.iter().filter(|&&byte| byte == b'\n').count();
            println!(
                "{:9}{:24} {lines:6} lines {:8} bytes in {:8} bytes out",
                program.name(),
                list.name,
                list.input.len(),
                expected.len()
            );
            fs::write(folder.join(format!("{}.input", list.name)), &list.input)?;
            fs::write(folder.join(format!("{}.expected", list.name)), &expected)?;
        }
    }
    Ok(())
}
