//! Links what the rows beside C need: the baseline c/bench/hashlittle.c, compiled here, and the archive of `leaves`, which
//! `tools/build leaves` writes to target/staticlib/ at the root of the repository.

use std::env;
use std::path::{Path, PathBuf};
use std::process::Command;

fn main() {
    let root = PathBuf::from(concat!(env!("CARGO_MANIFEST_DIR"), "/../.."));
    let out = PathBuf::from(env::var_os("OUT_DIR").expect("cargo names a folder"));
    link_leaves(&root.join("target/staticlib"));
    compile(&root.join("c/bench/hashlittle.c"), &out);
}

fn link_leaves(dir: &Path) {
    let dir = dir.canonicalize().unwrap_or_else(|_| dir.to_path_buf());
    let archive = dir.join("libleaves.a");
    println!("cargo::rerun-if-changed={}", archive.display());
    if archive.is_file() {
        println!("cargo::rustc-link-search=native={}", dir.display());
        println!("cargo::rustc-link-lib=static=leaves");
    } else {
        println!("cargo::error={} is missing: run `tools/build leaves`", archive.display());
    }
}

/// The C compiler and the archiver that a C program would be built with.
fn compile(source: &Path, out: &Path) {
    let object = out.join("hashlittle.o");
    let archive = out.join("libhashlittle.a");
    println!("cargo::rerun-if-changed={}", source.display());
    println!("cargo::rerun-if-env-changed=CC");
    let cc = env::var_os("CC").unwrap_or_else(|| "cc".into());
    run(Command::new(cc).args(["-O3", "-std=c11", "-c"]).arg(source).arg("-o").arg(&object));
    run(Command::new("ar").arg("rcs").arg(&archive).arg(&object));
    println!("cargo::rustc-link-search=native={}", out.display());
    println!("cargo::rustc-link-lib=static=hashlittle");
}

fn run(command: &mut Command) {
    match command.status() {
        Ok(status) if status.success() => {}
        Ok(status) => println!("cargo::error={command:?} ended with {status}"),
        Err(error) => println!("cargo::error={command:?}: {error}"),
    }
}
