//! Links the proved library: `libjogcairn.a` in the folder that the variable `JOGCAIRN_LIB` names, or in the repository's own
//! `target` folder, to which `scripts/archive` writes it.

use std::env;
use std::path::{Path, PathBuf};

fn main() {
    let target = |key| env::var(key).unwrap_or_default();
    let (arch, os) = (target("CARGO_CFG_TARGET_ARCH"), target("CARGO_CFG_TARGET_OS"));
    if arch != "x86_64" || os != "linux" {
        println!(
            "cargo::error=the proved library is compiled for x86_64 linux, not for {arch} {os}"
        );
        return;
    }
    println!("cargo::rerun-if-env-changed=JOGCAIRN_LIB");
    let folder = match env::var_os("JOGCAIRN_LIB") {
        Some(folder) => PathBuf::from(folder),
        None => Path::new(env!("CARGO_MANIFEST_DIR")).join("..").join("target"),
    };
    let archive = folder.join("libjogcairn.a");
    println!("cargo::rerun-if-changed={}", archive.display());
    if !archive.is_file() {
        println!(
            "cargo::error=the proved library {} is missing; `scripts/archive`, run at the top of \
             the repository, makes it, and JOGCAIRN_LIB names another folder that has it",
            archive.display()
        );
        return;
    }
    println!("cargo::rustc-link-search=native={}", folder.display());
    println!("cargo::rustc-link-lib=static=jogcairn");
}
