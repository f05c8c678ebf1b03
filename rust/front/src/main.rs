//! The program that the officer runs: it says what the library part has to say, and ends with its
//! status.

use std::env;
use std::io::{self, ErrorKind, IsTerminal, Write};
use std::process::ExitCode;

use front::{run, Said, Streams, REFUSED};

fn main() -> ExitCode {
    let mut streams = Streams {
        input: &mut io::stdin(),
        input_is_terminal: io::stdin().is_terminal(),
        output_is_terminal: io::stdout().is_terminal(),
    };
    let said = run(env::args_os().skip(1).collect(), &mut streams);
    complain(&said.err);
    match answer(&said.out) {
        Err(error) if is_failure(&error, &said) => {
            complain(&format!("telhavina: the answer could not be written: {error}\n"));
            ExitCode::from(REFUSED)
        }
        _ => ExitCode::from(said.status),
    }
}

/// A reader that has seen enough of a report and left is no trouble of ours: the verdict stands. Of
/// a file, no part is enough.
fn is_failure(error: &io::Error, said: &Said) -> bool {
    said.is_file || error.kind() != ErrorKind::BrokenPipe
}

fn answer(bytes: &[u8]) -> io::Result<()> {
    let mut out = io::stdout().lock();
    out.write_all(bytes)?;
    out.flush()
}

fn complain(text: &str) {
    // With the way for complaints closed, there is nowhere left to say so.
    let _ = io::stderr().write_all(text.as_bytes());
}
