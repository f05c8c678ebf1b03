//! The second program: it judges priority orders and finds them, reads and writes books, and keeps
//! a claim desk; it is written from document 01 and requests L1 to L4 alone.
//!
//! It is there to be compared with the proved library, in what it answers and in how long it
//! takes, so it shares nothing with it: no code, no contract, not even a table of limits.

mod book;
pub mod desk;
mod find;
pub mod old_start;
mod order;
mod row;
mod sums;

pub use book::{listing, read_book, write_book};

use row::{Row, FIELDS};
use sums::{ConstantAndLengths, Start};

/// A table has at most this many rows.
const MAX_ROWS: usize = 64;

/// What the desk replies. Rows and places count from 0, fields from 1.
#[derive(Debug, Clone, Copy, PartialEq, Eq)]
pub enum Reply {
    /// Every band passes.
    Passed,
    /// Some band is late; carries the first late place in the order.
    Late(u32),
    /// There is an order that passes; carries how many bands were tried.
    Found(u32),
    /// The book was read; carries how many rows it has.
    BookRead(u32),
    /// The book was written; carries how many bytes it has.
    BookWritten(u32),
    /// The row was granted; carries the ledger's new edition.
    Granted(u32),
    /// The row was taken out; carries the ledger's new edition.
    Withdrawn(u32),
    /// 1: no words, or not a multiple of six; for a claim, any number of words but six.
    Ragged,
    /// 2: more than 64 rows, or a book that says so; for a claim, a ledger that holds 64 already.
    TooMany,
    /// 3: the lowest bad row, and its lowest bad field.
    BadRow {
        /// The row, from 0.
        row: u32,
        /// The field, from 1.
        field: u32,
    },
    /// 4: the lent list is shorter than the answer.
    NoRoom,
    /// 5: the order has not one entry for each row.
    OrderLength,
    /// 6: the first place whose entry is out of range or a repeat.
    OrderEntry(u32),
    /// 7: the first place that resumes a FIFO already left.
    SplitQueue(u32),
    /// 8: at some place none of the bands that are left passes.
    NoOrder {
        /// The bands that are left.
        unplaced: u32,
        /// How many bands were tried, at all places together.
        tried: u32,
    },
    /// 9: the ledger has the greatest edition, so it can't be changed any more.
    Closed,
    /// 10: the ledger has another edition than its sender saw.
    OtherEdition,
    /// 11: the ledger holds no row of this number.
    NoSuchRow,
    /// 20: a book of under two bytes, or with a count of 0.
    EmptyBook,
    /// 21: a book whose length is not that of its count.
    BookLength,
    /// 22: the first row that does not start where the book says.
    BookOffset(u32),
    /// 23: a lent ledger that says it holds more than 64 rows, or holds a bad row.
    BadLedger,
}

impl Reply {
    /// Its number in the desk's list; an answer has 100 and more.
    pub fn number(self) -> u32 {
        match self {
            Reply::Passed => 100,
            Reply::Late(_) => 101,
            Reply::Found(_) => 102,
            Reply::BookRead(_) => 103,
            Reply::BookWritten(_) => 104,
            Reply::Granted(_) => 105,
            Reply::Withdrawn(_) => 106,
            Reply::Ragged => 1,
            Reply::TooMany => 2,
            Reply::BadRow { .. } => 3,
            Reply::NoRoom => 4,
            Reply::OrderLength => 5,
            Reply::OrderEntry(_) => 6,
            Reply::SplitQueue(_) => 7,
            Reply::NoOrder { .. } => 8,
            Reply::Closed => 9,
            Reply::OtherEdition => 10,
            Reply::NoSuchRow => 11,
            Reply::EmptyBook => 20,
            Reply::BookLength => 21,
            Reply::BookOffset(_) => 22,
            Reply::BadLedger => 23,
        }
    }
}

/// Judges `order` over `table`; the figure of row i goes to place i of `figures`, 0 if it is late.
///
/// A refusal alters no word of `figures`, and places past the last row are never written.
pub fn judge(table: &[u32], order: &[u32], figures: &mut [u32]) -> Reply {
    judged::<ConstantAndLengths>(table, order, figures).unwrap_or_else(|refusal| refusal)
}

/// Finds an order over `table` and puts it into the first places of `order`.
///
/// A refusal alters no word of `order`, and places past the last row are never written.
pub fn find(table: &[u32], order: &mut [u32]) -> Reply {
    found::<ConstantAndLengths>(table, order).unwrap_or_else(|refusal| refusal)
}

/// What was judged (passed or late), or else the first refusal of 1 to 7 that is due.
fn judged<S: Start>(table: &[u32], order: &[u32], figures: &mut [u32]) -> Result<Reply, Reply> {
    let mut rows = [Row::NONE; MAX_ROWS];
    let rows = read_table(table, figures.len(), &mut rows)?;
    let mut placed = [Row::NONE; MAX_ROWS];
    let placed = place_rows(rows, order, &mut placed)?;
    Ok(match sums::write_figures::<S>(placed, order, figures) {
        None => Reply::Passed,
        Some(place) => Reply::Late(number(place)),
    })
}

/// What was found, or else the first refusal of 1 to 4 and 8 that is due.
fn found<S: Start>(table: &[u32], order: &mut [u32]) -> Result<Reply, Reply> {
    let mut rows = [Row::NONE; MAX_ROWS];
    let rows = read_table(table, order.len(), &mut rows)?;
    let (found, tried) = find::find_order::<S>(rows)?;
    order[..rows.len()].copy_from_slice(&found);
    Ok(Reply::Found(number(tried)))
}

/// The rows of the table by row number, or refusal 1, 2, 3 or, with so much room lent, 4.
fn read_table<'a>(
    table: &[u32],
    room: usize,
    rows: &'a mut [Row; MAX_ROWS],
) -> Result<&'a [Row], Reply> {
    let words = rows_of_words(table)?;
    let rows = &mut rows[..words.len()];
    for (at, (row, words)) in rows.iter_mut().zip(words).enumerate() {
        *row = Row::read(words).map_err(|field| Reply::BadRow { row: number(at), field })?;
    }
    if room < rows.len() {
        return Err(Reply::NoRoom);
    }
    Ok(rows)
}

/// The words row by row, 1 to 64 rows, or refusal 1 or 2.
fn rows_of_words(table: &[u32]) -> Result<&[[u32; FIELDS]], Reply> {
    let (rows, rest) = table.as_chunks();
    if rows.is_empty() || !rest.is_empty() {
        return Err(Reply::Ragged);
    }
    if rows.len() > MAX_ROWS {
        return Err(Reply::TooMany);
    }
    Ok(rows)
}

/// The rows by place, highest priority first, or refusal 5, 6 or 7.
fn place_rows<'a>(
    rows: &[Row],
    order: &[u32],
    placed: &'a mut [Row; MAX_ROWS],
) -> Result<&'a [Row], Reply> {
    if order.len() != rows.len() {
        return Err(Reply::OrderLength);
    }
    if let Some(place) = order::first_bad_entry(order) {
        return Err(Reply::OrderEntry(number(place)));
    }
    let placed = &mut placed[..rows.len()];
    for (place, &row) in placed.iter_mut().zip(order) {
        *place = rows[row as usize];
    }
    match order::first_resumed(placed) {
        None => Ok(placed),
        Some(place) => Err(Reply::SplitQueue(number(place))),
    }
}

/// A row number, a place or a count as it is carried; the greatest is a number of bands tried, at
/// most 64 * 65 / 2.
fn number(at: usize) -> u32 {
    at as u32
}
