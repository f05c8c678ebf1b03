//! The library's refusals of a book, said of its bytes.

use telhavina::Refusal;

use crate::book::{length, rows_of_length, said_rows, said_start, start};
use crate::fault::Fault;
use crate::shown::count;
use crate::table::MOST_ROWS;

/// What to do about a book that is not whole: nothing in it can be mended by hand.
const WAY_OUT: &str = "the book is damaged: ask for it again";

/// This refusal of the book of these bytes. A book has neither lines nor columns to name.
pub fn in_words(refusal: Refusal, book: &[u8]) -> Fault {
    let rows = said_rows(book);
    let words = match (refusal, rows) {
        (Refusal::EmptyBook, Some(_)) => {
            Some(format!("the book says that it has no row; {WAY_OUT}"))
        }
        (Refusal::EmptyBook, None) => Some(too_short(book)),
        (Refusal::TooMany, Some(rows)) => Some(too_many(book, rows)),
        (Refusal::BookLength, Some(rows)) => Some(other_length(book, rows)),
        (Refusal::BookOffset { row }, Some(rows)) => other_start(book, row, rows),
        _ => None,
    };
    // No other comes from reading a book; the library's own words do for it.
    Fault::new(words.unwrap_or_else(|| refusal.to_string())).refusal(refusal.number())
}

fn too_short(book: &[u8]) -> String {
    match book.len() {
        0 => "it is empty, and a book has at least one row".to_string(),
        bytes => {
            let bytes = count(bytes, "byte");
            format!("it has {bytes}, and the row count of a book alone takes two; {WAY_OUT}")
        }
    }
}

fn too_many(book: &[u8], rows: usize) -> String {
    let said =
        format!("the book says that it has {rows} rows, and at most {MOST_ROWS} are allowed");
    let bytes = book.len();
    match rows_of_length(bytes) {
        Some(true_rows) if true_rows == rows => said,
        Some(true_rows) => {
            let true_rows = count(true_rows, "row");
            format!("{said}; and it has {bytes} bytes, as a book of {true_rows} has; {WAY_OUT}")
        }
        None => format!("{said}; {WAY_OUT}"),
    }
}

fn other_length(book: &[u8], rows: usize) -> String {
    let (rows_said, found, expected) = (count(rows, "row"), book.len(), length(rows));
    let wrong = match expected.checked_sub(found) {
        Some(missing) => format!("{} missing", are(missing)),
        None => format!("{} too many", are(found.saturating_sub(expected))),
    };
    format!(
        "the book says that it has {rows_said}, which would make {expected} bytes, and it has \
         {found}: {wrong}; {WAY_OUT}"
    )
}

fn are(bytes: usize) -> String {
    format!("{} {}", count(bytes, "byte"), if bytes == 1 { "is" } else { "are" })
}

fn other_start(book: &[u8], row: usize, rows: usize) -> Option<String> {
    let (said, true_start) = (said_start(book, row)?, start(row, rows));
    Some(format!(
        "row {row} does not start where the book says: the book says at byte {said}, and it is at \
         byte {true_start}; {WAY_OUT}"
    ))
}
