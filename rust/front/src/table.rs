//! The table of licences as it stands in a file, a CSV or a book.

use std::fmt;

use crate::book;
pub use crate::cells::{Length, Queue};
use crate::desk::file;
use crate::fault::{Column, Fault};
use crate::rate::Rate;
pub use crate::rows::read;

/// The most messages that are allowed, as people read it; it is the library that goes by it.
pub const MOST_ROWS: usize = 64;

/// One message, with the licence it has.
#[derive(Debug, Clone, PartialEq, Eq)]
pub struct Message {
    /// What it is called.
    pub name: String,
    /// The line of the file it stands on; a book has none.
    pub line: Option<usize>,
    /// Where it waits.
    pub queue: Queue,
    /// How long it is.
    pub length: Length,
    /// Its period in bit times.
    pub period: u32,
    /// Its deadline in bit times.
    pub deadline: u32,
    /// Its jitter in bit times.
    pub jitter: u32,
    /// The cells as they stand in the file; for a book, as they would in a CSV.
    pub(crate) written: [String; 6],
}

/// The messages of a file, row 0 first.
#[derive(Debug, Clone, PartialEq, Eq)]
pub struct Table {
    /// The bit rate, if times are in milliseconds.
    pub rate: Option<Rate>,
    /// The messages.
    pub messages: Vec<Message>,
}

/// The table of a file with these bytes, be it a book or a CSV.
pub fn of_file(bytes: &[u8]) -> Result<Table, Fault> {
    if file::is_ledger(bytes) {
        return Err(file::instead_of("a table"));
    }
    match book::is_book(bytes) {
        true => book::read(bytes),
        false => read(bytes),
    }
}

impl Message {
    /// The message of this row where its words are all there is: its name tells the row.
    pub(crate) fn of_words(row: usize, words: [u32; 6]) -> Message {
        Message::called(&format!("row{row}"), words)
    }

    /// The message of these words where it has a name besides them.
    pub(crate) fn called(name: &str, words: [u32; 6]) -> Message {
        let [queue, form, size, period, deadline, jitter] = words;
        let (name, queue, length) = (name.to_string(), Queue::of(queue), Length::of(form, size));
        let written = [
            name.clone(),
            queue.to_string(),
            length.to_string(),
            period.to_string(),
            deadline.to_string(),
            jitter.to_string(),
        ];
        Message { name, line: None, queue, length, period, deadline, jitter, written }
    }

    /// The six words of document 01.
    pub fn words(&self) -> [u32; 6] {
        let queue = match self.queue {
            Queue::Priority => 0,
            Queue::Fifo(number) => number,
        };
        let (form, size) = match self.length {
            Length::Bits(size) => (0, size),
            Length::Std(size) => (1, size),
            Length::Ext(size) => (2, size),
            Length::Other { form, size } => (form, size),
        };
        [queue, form, size, self.period, self.deadline, self.jitter]
    }

    /// What stands in this column of the file.
    pub fn written(&self, column: Column) -> &str {
        self.written.get(column as usize).map_or("", String::as_str)
    }
}

impl Table {
    /// The message of this row, if there is such a row.
    pub fn message(&self, row: u32) -> Option<&Message> {
        self.messages.get(row as usize)
    }

    /// The name of this row.
    pub fn name(&self, row: u32) -> &str {
        self.message(row).map_or("", |message| &message.name)
    }

    /// The words of the whole table.
    pub fn words(&self) -> Vec<u32> {
        self.messages.iter().flat_map(Message::words).collect()
    }
}

impl Queue {
    /// The queue that this word means.
    fn of(word: u32) -> Queue {
        match word {
            0 => Queue::Priority,
            number => Queue::Fifo(number),
        }
    }
}

impl Length {
    /// The forms of length by their numbers, as they are called in a CSV.
    pub(crate) const FORMS: &str = "the forms are 0 (bits), 1 (std) and 2 (ext)";

    /// The length that these two words mean.
    fn of(form: u32, size: u32) -> Length {
        match form {
            0 => Length::Bits(size),
            1 => Length::Std(size),
            2 => Length::Ext(size),
            form => Length::Other { form, size },
        }
    }
}

impl fmt::Display for Queue {
    fn fmt(&self, f: &mut fmt::Formatter) -> fmt::Result {
        match self {
            Queue::Priority => write!(f, "priority"),
            Queue::Fifo(number) => write!(f, "fifo {number}"),
        }
    }
}

impl fmt::Display for Length {
    fn fmt(&self, f: &mut fmt::Formatter) -> fmt::Result {
        match self {
            Length::Bits(size) => write!(f, "bits {size}"),
            Length::Std(size) => write!(f, "std {size}"),
            Length::Ext(size) => write!(f, "ext {size}"),
            Length::Other { form, size } => write!(f, "form {form} size {size}"),
        }
    }
}
