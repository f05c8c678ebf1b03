//! The real program, run on a file; a reader of its JSON; makers of files, books and ledgers; a tally
//! of answers.
#![allow(dead_code)]

pub mod books;
pub mod desk;
pub mod json;
pub mod made_up;
pub mod tally;

use std::ffi::{OsStr, OsString};
use std::fs::{self, File};
use std::path::{Path, PathBuf};
use std::process::{Command, Output};

use front::Streams;

/// The header line of a file.
pub const HEADER: &str = "name,queue,length,period,deadline,jitter\n";

/// The project's root, where `examples` is.
pub fn root() -> PathBuf {
    Path::new(env!("CARGO_MANIFEST_DIR")).join("../..")
}

/// What the program said, as text.
#[derive(Debug)]
pub struct Said {
    pub out: String,
    pub err: String,
    pub status: Option<i32>,
}

/// Runs the program with these arguments at the project's root.
pub fn run<S: AsRef<OsStr>>(args: &[S]) -> Said {
    said(command().args(args).output().expect("the program runs"))
}

pub fn command() -> Command {
    let mut command = Command::new(env!("CARGO_BIN_EXE_telhavina"));
    command.current_dir(root());
    command
}

pub fn said(output: Output) -> Said {
    let err = String::from_utf8(output.stderr).expect("UTF-8 on standard error");
    assert!(!err.contains("panicked"), "{err}");
    Said {
        out: String::from_utf8(output.stdout).expect("UTF-8 on standard output"),
        err,
        status: output.status.code(),
    }
}

/// Runs the program with this file as its standard input.
pub fn run_on(args: &[&str], path: &str) -> Said {
    let input = File::open(root().join(path)).expect("a file for the standard input");
    said(command().args(args).stdin(input).output().expect("the program runs"))
}

/// Does the same as the program, but within the test, with these bytes as the standard input; the
/// output goes to no screen.
pub fn run_here(args: &[&str], mut input: &[u8]) -> front::Said {
    let mut streams =
        Streams { input: &mut input, input_is_terminal: false, output_is_terminal: false };
    front::run(args.iter().map(OsString::from).collect(), &mut streams)
}

/// A file with these bytes, in a place of this test's own.
pub fn file(name: &str, bytes: &[u8]) -> String {
    let path = Path::new(env!("CARGO_TARGET_TMPDIR")).join(name);
    fs::write(&path, bytes).expect("a file for the test");
    path.to_str().expect("a UTF-8 path").to_string()
}
