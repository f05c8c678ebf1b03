//! A licence book: a table as a file, and what the program says of one. Written from request L1.
//!
//! The contents come first: the row count in two bytes, then the offset of each row from the
//! file's start in four, all high byte first. The bodies follow at once and in row order, six
//! words each, low byte first, and with the last of them the file ends.

use crate::row::FIELDS;
use crate::sums::ConstantAndLengths;
use crate::{found, judged, number, rows_of_words, Reply, MAX_ROWS};

/// Bytes of the row count.
const COUNT: usize = 2;
/// Bytes of an offset.
const OFFSET: usize = 4;
/// Bytes of a word.
const WORD: usize = 4;
/// Bytes of a row's body.
const BODY: usize = FIELDS * WORD;

/// Reads a book: its words go to the first places of `words`, whether they are allowed or not.
///
/// A refusal alters no word of `words`, and places past the last row's are never written.
pub fn read_book(book: &[u8], words: &mut [u32]) -> Reply {
    match read(book, words) {
        Ok(rows) => Reply::BookRead(number(rows)),
        Err(refusal) => refusal,
    }
}

/// Writes these words as a book to the first bytes of `book`, whether they are allowed or not.
///
/// A refusal alters no byte of `book`, and bytes past the book's last are never written.
pub fn write_book(words: &[u32], book: &mut [u8]) -> Reply {
    match written(words, book) {
        Ok(bytes) => Reply::BookWritten(number(bytes)),
        Err(refusal) => refusal,
    }
}

/// What the program writes for this book: a line a row, highest priority first, with the row and
/// its figure in the order that is found; or one line with the refusal's number.
pub fn listing(book: &[u8]) -> String {
    lines(book).unwrap_or_else(|refusal| format!("refused {}\n", refusal.number()))
}

/// How many rows were read, or the first refusal of 20, 2, 21, 22 and 4 that is due.
fn read(book: &[u8], words: &mut [u32]) -> Result<usize, Reply> {
    let (count, rest) = book.split_first_chunk::<COUNT>().ok_or(Reply::EmptyBook)?;
    let rows = usize::from(u16::from_be_bytes(*count));
    if rows == 0 {
        return Err(Reply::EmptyBook);
    }
    if rows > MAX_ROWS {
        return Err(Reply::TooMany);
    }
    if book.len() != start_of_body(rows, rows) {
        return Err(Reply::BookLength);
    }
    let (offsets, bodies) = rest.split_at(OFFSET * rows);
    if let Some(row) = first_wrong_offset(offsets.as_chunks().0) {
        return Err(Reply::BookOffset(number(row)));
    }
    let words = words.get_mut(..FIELDS * rows).ok_or(Reply::NoRoom)?;
    for (word, bytes) in words.iter_mut().zip(bodies.as_chunks().0) {
        *word = u32::from_le_bytes(*bytes);
    }
    Ok(rows)
}

/// Refusal 22: the first row whose offset is not where its body starts.
fn first_wrong_offset(offsets: &[[u8; OFFSET]]) -> Option<usize> {
    let rows = offsets.len();
    (0..rows).find(|&row| u32::from_be_bytes(offsets[row]) != number(start_of_body(row, rows)))
}

/// How many bytes were written, or the first refusal of 1, 2 and 4 that is due.
fn written(words: &[u32], book: &mut [u8]) -> Result<usize, Reply> {
    let made = book_of(rows_of_words(words)?);
    book.get_mut(..made.len()).ok_or(Reply::NoRoom)?.copy_from_slice(&made);
    Ok(made.len())
}

/// The book of these rows, at most 64.
fn book_of(rows: &[[u32; FIELDS]]) -> Vec<u8> {
    let start = |row: usize| number(start_of_body(row, rows.len()));
    let count = (rows.len() as u16).to_be_bytes();
    let offsets = (0..rows.len()).flat_map(|row| start(row).to_be_bytes());
    let bodies = rows.as_flattened().iter().flat_map(|word| word.to_le_bytes());
    count.into_iter().chain(offsets).chain(bodies).collect()
}

/// Where the body of a row starts in a book of so many rows; where the next would, the book ends.
fn start_of_body(row: usize, rows: usize) -> usize {
    COUNT + OFFSET * rows + BODY * row
}

/// A line a row, or what the book, its table or the search for an order is refused with.
fn lines(book: &[u8]) -> Result<String, Reply> {
    let mut words = [0; FIELDS * MAX_ROWS];
    let rows = read(book, &mut words)?;
    let table = &words[..FIELDS * rows];
    let mut order = [0; MAX_ROWS];
    let mut figures = [0; MAX_ROWS];
    let order = &mut order[..rows];
    found::<ConstantAndLengths>(table, order)?;
    // What is found passes, so every row has a figure.
    judged::<ConstantAndLengths>(table, order, &mut figures)?;
    Ok(order.iter().map(|&row| format!("{row} {}\n", figures[row as usize])).collect())
}
