//! The two ways between a CSV and a book. Nothing is judged: what can be put into words is written.

use crate::desk::file as ledger;
use crate::fault::Fault;
use crate::lines::is_wide;
use crate::load::Source;
use crate::{book, csv, table, Streams};

/// The book for the CSV in this file, unless a person would get it on a screen.
pub fn pack(file: &Source, streams: &mut Streams) -> Result<Vec<u8>, Fault> {
    if streams.output_is_terminal {
        return Err(Fault::new(
            "a book is binary and not for the screen: send it to a file (telhavina pack TABLE.csv \
             > BOOK)",
        ));
    }
    let bytes = file.load(streams.input)?;
    if ledger::is_ledger(&bytes) {
        return Err(ledger::instead_of("a table"));
    }
    if book::is_book(&bytes) {
        return Err(Fault::new(
            "this looks like a book, not a table: judge and find take it as it is, and unpack says \
             what is in it",
        ));
    }
    book::write(&table::read(&bytes)?)
}

/// The CSV for the book in this file, unless a person would have to type it.
pub fn unpack(file: &Source, streams: &mut Streams) -> Result<Vec<u8>, Fault> {
    if *file == Source::Input && streams.input_is_terminal {
        return Err(Fault::new(
            "a book is binary and cannot be typed in: name its file (telhavina unpack BOOK)",
        ));
    }
    let bytes = file.load(streams.input)?;
    if ledger::is_ledger(&bytes) {
        return Err(ledger::instead_of("a book"));
    }
    // What is empty is neither a text nor a book; whoever unpacks it takes it for a book.
    if !bytes.is_empty() && !book::is_book(&bytes) {
        return Err(no_book(&bytes));
    }
    csv::write(&book::read(&bytes)?).map(String::into_bytes)
}

fn no_book(bytes: &[u8]) -> Fault {
    let is_text = str::from_utf8(bytes).is_ok() && !bytes.contains(&0);
    Fault::new(match is_text {
        true => "this is a text and not a book; judge, find and pack take a CSV as it is",
        false if is_wide(bytes) => {
            "this looks like UTF-16 text, not a book; judge, find and pack take a CSV in UTF-8"
        }
        false => "this is neither a book nor a text: it is damaged, or not the right file",
    })
}
