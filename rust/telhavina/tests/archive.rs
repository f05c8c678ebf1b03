//! What the archive needs from outside. The header says that it is memcpy and memset, which a program
//! without a C library can bring along.

use std::process::Command;

/// The archive that these tests are linked with, as build.rs found it.
const ARCHIVE: &str = env!("TELHAVINA_ARCHIVE");

/// The names that the archive uses and does not bring along.
fn needed() -> Vec<String> {
    let output = Command::new("nm").args(["--undefined-only", ARCHIVE]).output().expect("nm runs");
    assert!(output.status.success(), "{}", String::from_utf8_lossy(&output.stderr));
    let text = String::from_utf8(output.stdout).expect("names are text");
    // `telhavina.o:`, and then a line a name, with no address in front of its kind
    let mut names: Vec<String> = text
        .lines()
        .filter(|line| line.starts_with(' '))
        .filter_map(|line| line.split_whitespace().last())
        .map(String::from)
        .collect();
    names.sort();
    names.dedup();
    names
}

// The header: 'need nothing but memcpy and memset'.
#[test]
fn needs_memcpy_and_memset_alone() {
    assert_eq!(needed(), ["memcpy", "memset"]);
}
