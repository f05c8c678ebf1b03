//! The file that holds a ledger: a few lines of text, the book of its rows, and a sum over both.
//!
//! ```text
//! telhavina ledger 1
//! edition 3
//! bitrate 250000       (only if there is one)
//! messages 2
//! Rudder
//! Winch speed
//! ```
//!
//! Each line ends in LF. Then comes the book as the library writes it, if a row is held, and the
//! CRC-32 of all bytes before it in four bytes, high byte first. It is all in one file so that it
//! can be replaced as a whole, and there is one way only to write a ledger.

use std::collections::BTreeSet;

use telhavina::Ledger;

use super::cells::check_name;
use super::crc::crc32;
use crate::book;
use crate::cells::whole;
use crate::fault::Fault;
use crate::load::LARGEST;
use crate::rate::Rate;
use crate::shown::{count, Quoted};
use crate::table::{Message, Table, MOST_ROWS};

/// What a ledger of any format starts with.
const START: &str = "telhavina ledger ";
/// The first line of the one that is known.
const FIRST_LINE: &str = "telhavina ledger 1";
/// What to do about a ledger that is not whole: nothing in it can be mended by hand.
const WAY_OUT: &str = "the ledger is damaged: take a copy of it that is whole";

/// What a ledger file tells: the library's ledger, and what people call its rows.
#[derive(Debug, Clone, PartialEq, Eq)]
pub struct Held {
    /// The bit rate, if times are in milliseconds.
    pub rate: Option<Rate>,
    /// The name of each row that is held.
    pub names: Vec<String>,
    /// The rows and the edition.
    pub ledger: Ledger,
}

impl Held {
    /// What holds nothing.
    pub fn fresh(rate: Option<Rate>) -> Held {
        Held { rate, names: Vec::new(), ledger: Ledger::fresh() }
    }

    /// The messages that are held.
    pub fn table(&self) -> Table {
        let (rows, _) = self.ledger.rows().as_chunks();
        let messages = rows.iter().zip(&self.names);
        let messages = messages.map(|(&words, name)| Message::called(name, words));
        Table { rate: self.rate, messages: messages.collect() }
    }
}

/// Whether a file with these bytes is a ledger, or was one.
pub fn is_ledger(bytes: &[u8]) -> bool {
    bytes.starts_with(START.as_bytes())
}

/// What to say where a ledger stands in the place of this.
pub(crate) fn instead_of(expected: &str) -> Fault {
    Fault::new(format!(
        "this is a ledger, not {expected}: telhavina desk LEDGER show tells what it holds"
    ))
}

/// The bytes of the file that holds this.
pub fn write(held: &Held) -> Result<Vec<u8>, Fault> {
    let rate = held.rate.map(|rate| format!("bitrate {}\n", rate.bits())).unwrap_or_default();
    let (edition, messages) = (held.ledger.edition, held.ledger.held);
    let names: String = held.names.iter().map(|name| format!("{name}\n")).collect();
    let head = format!("{FIRST_LINE}\nedition {edition}\n{rate}messages {messages}\n{names}");
    let mut bytes = head.into_bytes();
    if held.ledger.held > 0 {
        bytes.extend(book::write(&held.table())?);
    }
    bytes.extend(crc32(&bytes).to_be_bytes());
    if bytes.len() > LARGEST {
        return Err(Fault::new(format!(
            "with this message the ledger would be larger than 1 MiB ({LARGEST} bytes), and could \
             not be read again: choose a shorter name"
        )));
    }
    // A ledger that cannot be read again as it was meant must never take the place of one that can.
    match read(&bytes) {
        Ok(again) if told(&again) == told(held) => Ok(bytes),
        _ => Err(Fault::new("the ledger could not be written so that it can be read again")),
    }
}

/// All that a file tells of this; what stands behind the rows that are held is no part of it.
fn told(held: &Held) -> (Option<Rate>, &[String], &[u32], u32) {
    (held.rate, &held.names, held.ledger.rows(), held.ledger.edition)
}

/// What a file with these bytes holds. Each of them is checked.
pub fn read(bytes: &[u8]) -> Result<Held, Fault> {
    if !is_ledger(bytes) {
        return Err(no_ledger(bytes));
    }
    let mut lines = Lines { number: 0, rest: bytes };
    first_line(&mut lines)?;
    let Some((body, sum)) = bytes.split_last_chunk() else { return Err(damaged("it is cut off")) };
    let (said, true_sum) = (u32::from_be_bytes(*sum), crc32(body));
    if said != true_sum {
        let why = format!("its CRC-32 is {true_sum:08x}, and its last four bytes say {said:08x}");
        return Err(damaged(&why));
    }
    lines.rest = body.get(FIRST_LINE.len() + 1..).unwrap_or_default();
    let edition = lines.number("edition")?;
    let rate = lines.rate()?;
    let messages = lines.number("messages")?;
    if messages as usize > MOST_ROWS {
        return Err(damaged("more than 64 messages").on_line(lines.number));
    }
    let names = lines.names(messages)?;
    let rows = rows(lines.rest, names.len())?;
    let mut ledger = Ledger::fresh();
    for (place, word) in ledger.words.iter_mut().zip(rows) {
        *place = word;
    }
    (ledger.held, ledger.edition) = (messages, edition);
    Ok(Held { rate, names, ledger })
}

/// The words in the book that comes after the names.
fn rows(book: &[u8], messages: usize) -> Result<Vec<u32>, Fault> {
    if messages == 0 {
        return match book.len() {
            0 => Ok(Vec::new()),
            bytes => Err(damaged(&format!("{} after its last line", count(bytes, "byte")))),
        };
    }
    let table = book::read(book).map_err(|fault| damaged(&fault.message))?;
    match table.messages.len() {
        rows if rows == messages => Ok(table.words()),
        rows => {
            let (messages, rows) = (count(messages, "message"), count(rows, "row"));
            Err(damaged(&format!("{messages} by name, and {rows} in the book")))
        }
    }
}

/// The lines of a ledger that are still to be read.
struct Lines<'a> {
    /// The number of the line read last, counted from 1.
    number: usize,
    rest: &'a [u8],
}

impl<'a> Lines<'a> {
    fn next(&mut self, expected: &str) -> Result<&'a str, Fault> {
        self.number += 1;
        let missing = || damaged(&format!("expected {expected}")).on_line(self.number);
        let end = self.rest.iter().position(|&byte| byte == b'\n').ok_or_else(missing)?;
        let (line, rest) = self.rest.split_at(end);
        let line = str::from_utf8(line).map_err(|_| missing())?;
        self.rest = rest.get(1..).unwrap_or_default();
        Ok(line)
    }

    /// The number on the next line, which starts with this word. It is written in one way only.
    fn number(&mut self, word: &str) -> Result<u32, Fault> {
        let expected = format!("`{word} N`");
        let line = self.next(&expected)?;
        let digits = line.strip_prefix(word).and_then(|line| line.strip_prefix(' '));
        let number = digits.and_then(|digits| whole(digits).ok());
        let is_so = |number: &u32| digits == Some(number.to_string().as_str());
        number.filter(is_so).ok_or_else(|| {
            damaged(&format!("expected {expected}, found {}", Quoted(line))).on_line(self.number)
        })
    }

    /// The bit rate, if the next line tells one.
    fn rate(&mut self) -> Result<Option<Rate>, Fault> {
        if !self.rest.starts_with(b"bitrate") {
            return Ok(None);
        }
        let bits = self.number("bitrate")?;
        let none = || damaged("a bit rate of 0").on_line(self.number);
        Rate::new(bits).map(Some).ok_or_else(none)
    }

    /// So many names, each on its line, and no two alike.
    fn names(&mut self, messages: u32) -> Result<Vec<String>, Fault> {
        let mut seen = BTreeSet::new();
        let mut names = Vec::new();
        for _ in 0..messages {
            let name = self.next("a name")?;
            let wrong = |why: &str| damaged(why).on_line(self.number);
            check_name(name).map_err(|fault| wrong(&fault.message))?;
            if !seen.insert(name) {
                return Err(wrong(&format!("{} is the name of two messages", Quoted(name))));
            }
            names.push(name.to_string());
        }
        Ok(names)
    }
}

fn first_line(lines: &mut Lines) -> Result<(), Fault> {
    match lines.next(&format!("`{FIRST_LINE}`"))? {
        FIRST_LINE => Ok(()),
        other => Err(Fault::new(format!(
            "expected `{FIRST_LINE}`, the one format that is known, found {}: the ledger is \
             damaged, or another version of this program made it",
            Quoted(other)
        ))
        .on_line(1)),
    }
}

fn damaged(why: &str) -> Fault {
    Fault::new(format!("{why}; {WAY_OUT}"))
}

fn no_ledger(bytes: &[u8]) -> Fault {
    let looks = match bytes {
        [] => "the file is empty",
        _ if book::is_book(bytes) => "it looks like a book",
        _ => "its first line is another",
    };
    Fault::new(format!(
        "this is not a ledger: expected the first line `{FIRST_LINE}`, and {looks}; telhavina desk \
         LEDGER new makes a ledger"
    ))
}
