//! Tells cargo where the library's archive stands, and how to make it where it is missing.

use std::env;
use std::path::{Path, PathBuf};

/// Holds the absolute path of another directory to take the archive from.
const LIB_DIR: &str = "TELHAVINA_LIB_DIR";
const ARCHIVE: &str = "libtelhavina.a";

fn main() {
    let dir = lib_dir();
    let archive = dir.join(ARCHIVE);
    println!("cargo::rerun-if-env-changed={LIB_DIR}");
    println!("cargo::rerun-if-changed={}", archive.display());
    if !archive.is_file() {
        println!(
            "cargo::error={} is missing: run `rt lib` in crates/telhavina \
             first, or set {LIB_DIR} to the directory that has it",
            archive.display()
        );
    }
    // for tests/archive.rs
    println!("cargo::rustc-env=TELHAVINA_ARCHIVE={}", archive.display());
    println!("cargo::rustc-link-search=native={}", dir.display());
    println!("cargo::rustc-link-lib=static=telhavina");
}

/// The directory of the archive: crates/telhavina/out at the project's root, unless another is named.
fn lib_dir() -> PathBuf {
    match env::var_os(LIB_DIR) {
        Some(dir) => PathBuf::from(dir),
        None => Path::new(env!("CARGO_MANIFEST_DIR")).join("../../crates/telhavina/out"),
    }
}
