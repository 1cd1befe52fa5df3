//! Lists, jumps and calls that are planted in a small object and in the library's own are found, each
//! by the rule that is there for it.

use crate::{compiled, complaints, read, BUDGET, COMPARE, FILL};
use std::fs;
use std::path::{Path, PathBuf};
use std::process::Command;

/// Sections for each function and list, as the archive has them, and nothing that it has not.
const OPTIONS: &str = "-w -O1 -c -fPIC -ffunction-sections -fdata-sections \
    -fno-asynchronous-unwind-tables -fno-stack-protector -fcf-protection=none";

fn scratch(name: &str) -> PathBuf {
    Path::new(env!("CARGO_TARGET_TMPDIR")).join(name)
}

fn run(command: &mut Command) {
    assert!(command.status().is_ok_and(|status| status.success()), "{command:?}");
}

/// Compiles the small object, with something planted in it.
fn compile(name: &str, planted: &str) -> PathBuf {
    let (source, object) = (scratch(&format!("{name}.c")), scratch(&format!("{name}.o")));
    fs::write(&source, include_str!("small.c").replace("PLANTED", planted)).unwrap();
    let mut compiler = Command::new("cc");
    compiler.args(OPTIONS.split_whitespace()).arg(format!("-DBUDGET={BUDGET}"));
    run(compiler.arg(source).arg("-o").arg(&object));
    object
}

#[test]
fn what_is_planted_in_a_small_object_is_found() {
    for planted in include_str!("planted.c").split("\n// ").skip(1) {
        let (front, planted) = planted.split_once('\n').unwrap_or((planted, ""));
        let object = read("objdump", &compile("planted", planted)).unwrap();
        let complaints = complaints(&object, &[FILL, COMPARE]);
        let found = complaints.iter().any(|complaint| complaint.starts_with(front));
        let right = found || front == "no complaint" && complaints.is_empty();
        assert!(right, "{planted}\n{front}\n{complaints:#?}");
    }
}

#[test]
fn a_list_is_found_in_the_archive_and_in_either_program() {
    let (list, planted) = (scratch("weights"), scratch("with_weights"));
    fs::write(&list, (13..47).collect::<Vec<u8>>()).unwrap();
    for (file, weighing, _) in compiled() {
        let section = format!("--add-section=.rodata.weights={}", list.display());
        let flags = "--set-section-flags=.rodata.weights=alloc,readonly,data";
        run(Command::new("objcopy").args([&section, flags]).args([&file, &planted]));
        let complaints = complaints(&read("objdump", &planted).unwrap(), weighing);
        let front = ".rodata.weights: at byte 0: 34 entries, 1 apart, rise by 1";
        assert!(complaints.iter().any(|it| it.starts_with(front)), "{file:?}: {complaints:#?}");
    }
}

#[test]
fn what_is_not_one_object_is_refused() {
    let refusal = |objdump: &str, file: &Path| read(objdump, file).err().unwrap();
    let (one, other) = (compile("one", ""), compile("other", ""));
    assert!(refusal("no-objdump", &one).starts_with("no-objdump, of binutils, is needed: "));
    assert!(refusal("objdump", &scratch("one.c")).contains("file format not recognized"));
    run(Command::new("ar").arg("rcs").args([scratch("two.a"), one, other]));
    assert!(refusal("objdump", &scratch("two.a")).contains("is not one object for x86-64"));
}
