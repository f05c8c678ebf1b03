//! The command line of the library: a licensing officer keeps the table of licences in a file, and
//! asks whether an order of it passes, or for an order that does; and turns a table into a book for
//! others, or a book from others into a table. At the desk, the officer keeps a ledger in which room
//! is granted to one message after another.
//!
//! Here a file is read, put into the words of document 01, handed to [`telhavina`], and the reply is
//! shown. All that is decided about a table is decided there, by the proved library; only what
//! cannot be put into words of 32 bits is turned down here, or a word that cannot be put into a CSV,
//! or a ledger that is not whole.

mod alike;
pub mod answer;
pub mod args;
pub mod book;
mod book_refusal;
mod cells;
mod columns;
pub mod convert;
pub mod csv;
pub mod desk;
pub mod fault;
mod help;
pub mod json;
mod lines;
pub mod load;
pub mod millis;
pub mod order;
pub mod rate;
mod refusal;
pub mod report;
mod rows;
mod shown;
pub mod table;

use std::ffi::OsString;
use std::io::Read;

use answer::Answer;
use args::{Command, Request, Usage};
use fault::Fault;
use load::Source;
use report::Report;
use shown::Shown;
use table::Table;

/// The exit status of an order that passes, judged or found, of a file that was turned into another,
/// and of what was done at the desk.
pub const GOOD: u8 = 0;
/// The exit status of an answer that is no: late, or no order, as where the desk has no room.
pub const NOT_GOOD: u8 = 1;
/// The exit status where there is no answer: refused, not readable, not asked for in the right way,
/// or not to be written.
pub const REFUSED: u8 = 2;

/// What the program is connected to.
pub struct Streams<'a> {
    /// The standard input.
    pub input: &'a mut dyn Read,
    /// Whether a person would have to type it.
    pub input_is_terminal: bool,
    /// Whether the standard output is shown to a person as it comes.
    pub output_is_terminal: bool,
}

/// What the program says, and the status it ends with.
#[derive(Debug, Clone, PartialEq, Eq)]
pub struct Said {
    /// For the standard output: text, or a book.
    pub out: Vec<u8>,
    /// For the standard error.
    pub err: String,
    /// The exit status.
    pub status: u8,
    /// Whether the output is a file, and of no use unless it gets through as a whole.
    pub is_file: bool,
}

impl Said {
    /// This answer, and nothing on the standard error.
    fn answer(out: impl Into<Vec<u8>>, status: u8) -> Said {
        Said { out: out.into(), err: String::new(), status, is_file: false }
    }

    /// This file, and nothing on the standard error.
    fn file(out: Vec<u8>) -> Said {
        Said { is_file: true, ..Said::answer(out, GOOD) }
    }

    /// No answer, and the reason on the standard error.
    fn complaint(err: String) -> Said {
        Said { out: Vec::new(), err, status: REFUSED, is_file: false }
    }
}

/// Does what these arguments ask for; the name of the program is not among them.
pub fn run(args: Vec<OsString>, streams: &mut Streams) -> Said {
    let Request { command, json } = match args::read(args) {
        Ok(request) => request,
        Err(usage) => return misused(&usage),
    };
    match command {
        Command::Help => Said::answer(help::HELP, GOOD),
        Command::Judge { file, order } => {
            reply(&file, streams, json, |table| answer::judge(table, order.as_deref()))
        }
        Command::Find { file } => reply(&file, streams, json, answer::find),
        Command::Pack { file } => converted(&file, convert::pack(&file, streams)),
        Command::Unpack { file } => converted(&file, convert::unpack(&file, streams)),
        Command::Desk { ledger, task } => desk::said(&ledger, &task, json),
    }
}

/// What is said to this question about the table in this file.
fn reply(
    file: &Source,
    streams: &mut Streams,
    json: bool,
    ask: impl FnOnce(&Table) -> Result<Answer, Fault>,
) -> Said {
    let name = file.name();
    let answered = file.load(streams.input).and_then(|bytes| {
        let table = table::of_file(&bytes)?;
        let answer = ask(&table)?;
        Ok((table, answer))
    });
    match answered {
        Ok((table, answer)) => {
            let status = if answer.is_good() { GOOD } else { NOT_GOOD };
            let out = match json {
                true => json::answer(&name, &table, &answer),
                false => Report { file, table: &table, answer: &answer }.to_string(),
            };
            Said::answer(out, status)
        }
        Err(fault) if json => Said::answer(json::fault(&name, &fault), REFUSED),
        Err(fault) => Said::complaint(complaint(&name, &fault)),
    }
}

/// What is said where this file was to be turned into another.
fn converted(file: &Source, made: Result<Vec<u8>, Fault>) -> Said {
    match made {
        Ok(made) => Said::file(made),
        Err(fault) => Said::complaint(complaint(&file.name(), &fault)),
    }
}

/// The line for the standard error that names the file.
fn complaint(file: &str, fault: &Fault) -> String {
    let between = if fault.line.is_some() { ", " } else { ": " };
    format!("{}{between}{fault}\n", Shown(file))
}

/// A program that asked for JSON finds an object as ever, and no more; a person finds the usage.
fn misused(usage: &Usage) -> Said {
    match usage.json {
        true => Said::answer(json::misused(&usage.message), REFUSED),
        false => Said::complaint(format!("telhavina: {}\n{}", usage.message, help::USAGE)),
    }
}
