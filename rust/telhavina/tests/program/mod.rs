//! The program `book_main`, run on a file or fed through a pipe.

use std::env;
use std::fs::{self, File};
use std::io::Write;
use std::path::{Path, PathBuf};
use std::process::{Child, ChildStdin, Command, Stdio};
use std::thread;
use std::time::{Duration, Instant};

/// Holds the absolute path of another program to run.
const BOOK_MAIN: &str = "TELHAVINA_BOOK_MAIN";
/// The program has to end within this time.
const LIMIT: Duration = Duration::from_secs(10);
/// How often it is asked whether it has ended.
const TICK: Duration = Duration::from_micros(200);
/// Between two pieces, so that the program sees the first one alone.
const PAUSE: Duration = Duration::from_millis(10);
/// An endless input gives at most so many bytes, and then no more and no end either: a program that
/// keeps them all is to be stopped by the time limit, and not for want of memory.
const MOST: usize = 256 << 20;

/// What the program writes for a file with these bytes; no other test has a file of this name.
pub fn of_file(name: &str, bytes: &[u8]) -> String {
    let path = Path::new(env!("CARGO_TARGET_TMPDIR")).join(name);
    fs::write(&path, bytes).expect("a file for the test");
    of_input(File::open(&path).expect("the file just written"))
}

/// What it writes for this input.
pub fn of_input(input: impl Into<Stdio>) -> String {
    written(start(input))
}

/// What it writes for these pieces, which come through a pipe one after the other.
pub fn of_pieces(pieces: &[&[u8]]) -> String {
    let pieces: Vec<Vec<u8>> = pieces.iter().map(|piece| piece.to_vec()).collect();
    of_pipe(move |mut pipe| {
        for (at, piece) in pieces.iter().enumerate() {
            if at > 0 {
                thread::sleep(PAUSE);
            }
            // The program may have seen enough, and then nothing reads on.
            if pipe.write_all(piece).is_err() {
                break;
            }
        }
        None
    })
}

/// What it writes for these bytes, over and over without end.
pub fn of_endless(bytes: &[u8]) -> String {
    let bytes = bytes.to_vec();
    of_pipe(move |mut pipe| {
        let times = MOST / bytes.len();
        (0..times).all(|_| pipe.write_all(&bytes).is_ok());
        Some(pipe)
    })
}

/// What it writes while its input is fed; a pipe that is given back stays open until its end.
fn of_pipe(feed: impl FnOnce(ChildStdin) -> Option<ChildStdin> + Send + 'static) -> String {
    let mut child = start(Stdio::piped());
    let pipe = child.stdin.take().expect("a pipe to the program");
    let feeding = thread::spawn(move || feed(pipe));
    let written = written(child);
    drop(feeding.join().expect("the input was fed"));
    written
}

fn start(input: impl Into<Stdio>) -> Child {
    let mut command = Command::new(program());
    command.stdin(input).stdout(Stdio::piped()).stderr(Stdio::piped());
    command.spawn().expect("the program starts")
}

/// The path of the program: crates/book_main/out at the project's root has it, unless another is named.
fn program() -> PathBuf {
    let path = match env::var_os(BOOK_MAIN) {
        Some(path) => PathBuf::from(path),
        None => Path::new(env!("CARGO_MANIFEST_DIR")).join("../../crates/book_main/out/book_main"),
    };
    assert!(
        path.is_file(),
        "{} is missing: run `rt run` in crates/book_main first, or set {BOOK_MAIN} \
         to the path of the program",
        path.display()
    );
    path
}

/// All that the program wrote by its end, which it comes to by itself; on standard error nothing.
fn written(mut child: Child) -> String {
    let start = Instant::now();
    while child.try_wait().expect("the program can be asked").is_none() {
        if start.elapsed() > LIMIT {
            child.kill().expect("the program can be stopped");
            child.wait().expect("the program was stopped");
            panic!("the program did not end within {LIMIT:?}");
        }
        thread::sleep(TICK);
    }
    let output = child.wait_with_output().expect("what the program wrote");
    assert!(output.status.code().is_some(), "the program broke off: {}", output.status);
    assert_eq!(String::from_utf8_lossy(&output.stderr), "");
    String::from_utf8(output.stdout).expect("UTF-8 on standard output")
}
