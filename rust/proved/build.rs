//! Links the archive of the proved code, which `tools/build cabi` writes to target/staticlib/ at
//! the root of the repository. UNGLETICE_LIB_DIR names another folder that has it.

use std::env;
use std::path::PathBuf;

const DIR: &str = "UNGLETICE_LIB_DIR";

fn main() {
    let dir = match env::var_os(DIR) {
        Some(dir) => PathBuf::from(dir),
        None => PathBuf::from(concat!(
            env!("CARGO_MANIFEST_DIR"),
            "/../../target/staticlib"
        )),
    };
    // Cargo runs this in the crate's folder, and the linker elsewhere: it gets the whole path.
    let dir = dir.canonicalize().unwrap_or(dir);
    let archive = dir.join("libcabi.a");
    println!("cargo::rerun-if-env-changed={DIR}");
    println!("cargo::rerun-if-changed={}", archive.display());
    if archive.is_file() {
        println!("cargo::rustc-link-search=native={}", dir.display());
        println!("cargo::rustc-link-lib=static=cabi");
    } else {
        println!(
            "cargo::error={} is missing: run `tools/build cabi`, or set {DIR} to the folder that has it",
            archive.display()
        );
    }
}
