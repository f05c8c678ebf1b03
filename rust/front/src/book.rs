//! A book of licences: the table in bytes, as yards send it. The library reads and writes it; here
//! it is told from a text, and lent its room.

use telhavina::{Reading, Writing};

use crate::book_refusal;
use crate::fault::Fault;
use crate::lines::is_wide;
use crate::refusal;
use crate::table::{Message, Table, MOST_ROWS};

/// The row count at the start of a book, in bytes.
const COUNT: usize = 2;
/// What tells where a row starts, in bytes.
const OFFSET: usize = 4;
/// A row itself, in bytes.
const BODY: usize = 24;

/// Whether a file with these bytes is a book and not a text. A book starts with its row count, whose
/// high byte is zero for as many rows as are allowed; a low one of zero is taken for that of a book
/// too, after a control character. Of texts, only one in UTF-16 can start so, and it has no NUL. A
/// book that starts like one has at most 13 * 256 rows (a CR), so that the offset of row 0, next to
/// the count, is less than 2^16: its first two bytes are zero, and in UTF-16 a NUL.
pub fn is_book(bytes: &[u8]) -> bool {
    let is_count = match bytes {
        [0, ..] => true,
        [first, 0, ..] => first.is_ascii_control(),
        _ => false,
    };
    is_count && !is_wide(bytes)
}

/// The table in a book of these bytes. It has no bit rate, and no names but the numbers of the rows.
pub fn read(bytes: &[u8]) -> Result<Table, Fault> {
    let mut rows = [[0; 6]; MOST_ROWS];
    match telhavina::read_book(bytes, rows.as_flattened_mut()) {
        Reading::Read { rows: count } => {
            let rows = rows.into_iter().take(count).enumerate();
            let messages = rows.map(|(row, words)| Message::of_words(row, words)).collect();
            Ok(Table { rate: None, messages })
        }
        Reading::Refused(refusal) => Err(book_refusal::in_words(refusal, bytes)),
    }
}

/// This table as a book. Whether it would be judged is not asked.
pub fn write(table: &Table) -> Result<Vec<u8>, Fault> {
    let mut book = vec![0; length(table.messages.len())];
    match telhavina::write_book(&table.words(), &mut book) {
        Writing::Written { bytes } => {
            book.truncate(bytes);
            Ok(book)
        }
        Writing::Refused(refusal) => Err(refusal::in_words(refusal, table, None)),
    }
}

/// How many bytes a book of so many rows has.
pub(crate) fn length(rows: usize) -> usize {
    start(rows, rows)
}

/// How many rows a book of so many bytes has, if there is such a book.
pub(crate) fn rows_of_length(bytes: usize) -> Option<usize> {
    let rows = bytes.checked_sub(COUNT)? / (OFFSET + BODY);
    (rows > 0 && length(rows) == bytes).then_some(rows)
}

/// Where this row starts in a book of so many rows.
pub(crate) fn start(row: usize, rows: usize) -> usize {
    COUNT + OFFSET * rows + BODY * row
}

/// How many rows the book says it has, if it goes so far.
pub(crate) fn said_rows(book: &[u8]) -> Option<usize> {
    book.first_chunk::<COUNT>().map(|count| u16::from_be_bytes(*count).into())
}

/// Where the book says that this row starts, if it goes so far.
pub(crate) fn said_start(book: &[u8], row: usize) -> Option<u32> {
    let offsets = book.get(COUNT..)?.chunks_exact(OFFSET);
    let offset = offsets.skip(row).map(<[u8; OFFSET]>::try_from).next()?;
    offset.ok().map(u32::from_be_bytes)
}

#[cfg(test)]
mod tests {
    use super::{is_book, length, read, rows_of_length, said_rows, said_start, start, write};
    use crate::table::{Length, Queue};

    /// Two rows, the second of a form that no CSV tells.
    const WORDS: [u32; 12] = [0, 0, 125, 1000, 750, 0, 99, 7, 3, u32::MAX, 1, 2];

    fn book() -> Vec<u8> {
        let mut book = vec![0; length(2)];
        let written = telhavina::Writing::Written { bytes: 58 };
        assert_eq!(telhavina::write_book(&WORDS, &mut book), written);
        book
    }

    #[test]
    fn told_by_its_start() {
        for bytes in [b"\0".as_slice(), b"\0\0", b"\0\x01", b"\0n", b"\x01\0", b"\x01\0\0"] {
            assert!(is_book(bytes), "{bytes:?}");
        }
        for bytes in [b"".as_slice(), b"n", b"na\0", b"\xFF\xFE", b"\x01\x01\0"] {
            assert!(!is_book(bytes), "{bytes:?}");
        }
        // How a text in UTF-16 starts: its header, a comment, or a blank line.
        let wide = [b"n\0a\0".as_slice(), b"#\0 \0", b"\0n\0a", b"\0#\0 ", b"\n\0n\0", b"\0\n\0n"];
        for bytes in wide {
            assert!(!is_book(bytes), "{bytes:?}");
        }
    }

    /// A book of so many rows, allowed or not.
    fn of_rows(rows: usize) -> Vec<u8> {
        let count = u16::try_from(rows).expect("a row count").to_be_bytes();
        let offsets = (0..rows).map(|row| u32::try_from(start(row, rows)).expect("an offset"));
        let mut book: Vec<u8> =
            count.into_iter().chain(offsets.flat_map(u32::to_be_bytes)).collect();
        // No NUL in the rows: all is up to what comes before them.
        book.resize(length(rows), b'a');
        book
    }

    #[test]
    fn no_book_looks_like_a_text() {
        for rows in (1..256).chain((256..32 * 256).step_by(256)).chain([127 * 256]) {
            let book = of_rows(rows);
            let least = if rows < 256 { 1 } else { 2 };
            assert!((least..book.len().min(3000)).all(|end| is_book(&book[..end])), "{rows} rows");
            assert!(is_book(&book), "{rows} rows");
        }
    }

    // A book whose count could be a character has so many offsets that one NUL more or less among
    // them does not matter.
    #[test]
    fn nor_does_one_with_a_damaged_byte() {
        for rows in 1..=64 {
            let book = of_rows(rows);
            for (at, byte) in
                (1..book.len()).flat_map(|at| [0, 1, b'a', 255].map(|byte| (at, byte)))
            {
                let mut damaged = book.clone();
                damaged[at] = byte;
                assert!(is_book(&damaged), "{rows} rows, {byte} at {at}");
            }
        }
    }

    #[test]
    fn there_and_back() {
        let table = read(&book()).expect("a table");
        assert_eq!(table.words(), WORDS);
        assert_eq!(table.rate, None);
        let [first, second] = &table.messages[..] else { panic!("{table:?}") };
        assert_eq!((first.name.as_str(), second.name.as_str()), ("row0", "row1"));
        assert_eq!((first.line, first.queue), (None, Queue::Priority));
        assert_eq!(second.queue, Queue::Fifo(99));
        assert_eq!(second.length, Length::Other { form: 7, size: 3 });
        assert_eq!(write(&table), Ok(book()));
    }

    #[test]
    fn what_a_book_says() {
        let book = book();
        assert_eq!((said_rows(&book), said_rows(&book[..1])), (Some(2), None));
        for row in 0..2 {
            assert_eq!(said_start(&book, row), u32::try_from(start(row, 2)).ok());
        }
        assert_eq!((said_start(&book[..9], 1), said_start(b"\0", 0)), (None, None));
        assert_eq!((length(1), length(4)), (30, 114));
        assert_eq!((rows_of_length(30), rows_of_length(114)), (Some(1), Some(4)));
        assert_eq!([0, 1, 2, 29, 31, 113].map(rows_of_length), [None; 6]);
    }
}
