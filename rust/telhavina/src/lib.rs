//! Judges the priority order of a table of CAN messages, and finds one; reads and writes books of
//! licences; keeps the ledger of a desk where room on a bus is claimed.
//!
//! Given which messages a bus has to carry and in which order of priority, [`judge`] says for
//! each message a time from being queued within which it is wholly sent, the least that the
//! published equations allow, or that they allow none within its deadline. Given the messages
//! alone, [`find`] gives an order that passes this judgement, or says that there is none. [`claim`]
//! grants one message more where such an order is left, and [`withdraw`] takes one back. All of it
//! is done by a proved library, linked in statically; this crate adds safe types and nothing else.
//! All times are whole bit times.
//!
//! # The table
//!
//! Six words a row, 1 to 64 rows, rows numbered from 0:
//!
//! | Field | Meaning | Allowed |
//! |---|---|---|
//! | 1 | queue | 0 = priority; 1 to 64 = FIFO of that number |
//! | 2 | form of length | 0 = bit times; 1 = bytes, 11-bit identifier; 2 = bytes, 29-bit identifier |
//! | 3 | size | form 0: 1 to 4,096; forms 1 and 2: 0 to 8 |
//! | 4 | period T | 1 to 1,000,000 |
//! | 5 | deadline D | 1 to T |
//! | 6 | jitter J | 0 to D |
//!
//! A frame counts with the most stuff bits that so many bits could need: s bytes are 55 + 10s bit
//! times in form 1 and 80 + 10s in form 2. In form 0 the size is taken as it stands: the stuff bits
//! and the gap to the next frame must be in it.
//!
//! # The order and the figures
//!
//! The order lists all row numbers, highest priority first, and keeps the rows of each FIFO
//! together. The caller lends a list for the answer with a place for each row, or more. Judging
//! puts the figure of row i at place i, whatever the order; finding puts the order into the first
//! places, with the rows of a FIFO in rising row number. Places past the last row are not written,
//! and a refusal alters no place at all.
//!
//! ```
//! use telhavina::{find, judge, Finding, Judgement, Refusal};
//!
//! let table = [
//!     1, 0, 100, 1000, 1000, 0, // row 0, in FIFO 1
//!     1, 0, 60, 1000, 600, 0, // row 1, in FIFO 1 too
//!     0, 0, 80, 500, 500, 0, // row 2, a priority row
//! ];
//! let mut figures = [0; 3];
//! assert_eq!(judge(&table, &[2, 0, 1], &mut figures), Judgement::Passed);
//! assert_eq!(figures, [340, 340, 180]);
//!
//! // The priority row must not come between the rows of the FIFO.
//! let split = Refusal::SplitQueue { place: 2 };
//! assert_eq!(judge(&table, &[0, 2, 1], &mut figures), Judgement::Refused(split));
//! assert_eq!(figures, [340, 340, 180]);
//!
//! // That first order is also the one that is found: the FIFO passes at the lowest place, as the
//! // first band tried there, and then the priority row above it.
//! let mut order = [0; 3];
//! assert_eq!(find(&table, &mut order), Finding::Found { tried: 2 });
//! assert_eq!(order, [2, 0, 1]);
//! ```
//!
//! # Books
//!
//! Yards send tables as files. A book has its row count in two bytes, then the offset of each row
//! from the file's start in four bytes, all high byte first; then the rows, six words each, four
//! bytes a word, low byte first, and nothing else: 28 bytes a row and two.
//!
//! ```
//! use telhavina::{read_book, write_book, Reading, Refusal, Writing};
//!
//! let table = [0, 0, 125, 1000, 750, 0];
//! let mut book = [0; 30];
//! assert_eq!(write_book(&table, &mut book), Writing::Written { bytes: 30 });
//! assert_eq!(book[..14], [0, 1, 0, 0, 0, 6, 0, 0, 0, 0, 0, 0, 0, 0]);
//!
//! let mut words = [0; 6];
//! assert_eq!(read_book(&book, &mut words), Reading::Read { rows: 1 });
//! assert_eq!(words, table);
//! assert_eq!(read_book(&book[..29], &mut words), Reading::Refused(Refusal::BookLength));
//! ```
//!
//! # The desk
//!
//! A [`Ledger`] holds the rows that were granted on one bus, and its edition: how often it has
//! changed. [`claim`] adds a row if there is an order of all rows that passes, and [`withdraw`]
//! takes one out. Both are sent with the edition that the claimant saw, so that of two who saw the
//! same one, only the first is served. A refusal leaves the ledger as it was.
//!
//! ```
//! use telhavina::{claim, withdraw, Claim, Ledger, Refusal, Withdrawal};
//!
//! // A frame of 100 is sent within 200 if there is no other row, within 300 below one like it, and
//! // within 400 below two: where 350 are allowed, there is room for two.
//! let row = [0, 0, 100, 1000, 350, 0];
//! let mut ledger = Ledger::fresh();
//! assert_eq!(claim(&mut ledger, &row, 0), Claim::Granted { edition: 1 });
//! assert_eq!(claim(&mut ledger, &row, 1), Claim::Granted { edition: 2 });
//! assert_eq!(ledger.rows(), [row, row].concat());
//!
//! // Who saw edition 1 has to look again, and then there is no room left.
//! let late = claim(&mut ledger, &row, 1);
//! assert_eq!(late, Claim::Refused(Refusal::OtherEdition));
//! let no_room = Refusal::NoOrder { unplaced: 3, tried: 3 };
//! assert_eq!(claim(&mut ledger, &row, 2), Claim::Refused(no_room));
//!
//! assert_eq!(withdraw(&mut ledger, 0, 2), Withdrawal::Withdrawn { edition: 3 });
//! assert_eq!(claim(&mut ledger, &row, 3), Claim::Granted { edition: 4 });
//! ```
//!
//! # Building
//!
//! The build links `libtelhavina.a`, made by `rt lib` in the project's `crates/telhavina` and
//! looked for in `crates/telhavina/out` there, or in the directory whose absolute path is in the
//! environment variable `TELHAVINA_LIB_DIR`.

mod desk;
mod ffi;
mod ledger;
mod refusal;

pub use desk::{claim, withdraw, Claim, Withdrawal};
pub use ledger::Ledger;
pub use refusal::Refusal;

const PASSED: u32 = 100;
const LATE: u32 = 101;
const FOUND: u32 = 102;
const READ: u32 = 103;
const WRITTEN: u32 = 104;

/// What is said of an order.
#[derive(Debug, Clone, Copy, PartialEq, Eq)]
#[must_use]
pub enum Judgement {
    /// Every row has its figure, no more than its deadline less its jitter (for a FIFO row, the
    /// least such time in its queue).
    Passed,
    /// Some rows are late: their figures are 0, those of the others stand.
    Late {
        /// The first late place in the order (a place, not a row).
        place: usize,
    },
    /// The question could not be taken; no figure was written.
    Refused(Refusal),
}

/// What comes of looking for an order.
#[derive(Debug, Clone, Copy, PartialEq, Eq)]
#[must_use]
pub enum Finding {
    /// There is an order that passes, and it stands in the first places of the lent list.
    Found {
        /// How many bands were tried, at all places together.
        tried: usize,
    },
    /// The question could not be taken, or there is no order that passes; no place was written.
    Refused(Refusal),
}

/// What comes of reading a book.
#[derive(Debug, Clone, Copy, PartialEq, Eq)]
#[must_use]
pub enum Reading {
    /// The words stand in the first places of the lent list, six a row.
    Read {
        /// How many rows the book has.
        rows: usize,
    },
    /// The bytes are no book, or the lent list has no room; no place was written.
    Refused(Refusal),
}

/// What comes of writing a book.
#[derive(Debug, Clone, Copy, PartialEq, Eq)]
#[must_use]
pub enum Writing {
    /// The book stands in the first bytes of the lent list.
    Written {
        /// How many bytes the book has.
        bytes: usize,
    },
    /// The words are no table, or the lent list has no room; no byte was written.
    Refused(Refusal),
}

/// Judges `order` over `table` and writes the figure of row i to place i of `figures`.
///
/// Any input is answered: nothing need be checked beforehand. The refusals are 1 to 7; where
/// several are due, the one with the least number is given.
pub fn judge(table: &[u32], order: &[u32], figures: &mut [u32]) -> Judgement {
    let reply = ffi::judge(table, order, figures);
    match reply.number {
        PASSED => Judgement::Passed,
        LATE => Judgement::Late { place: reply.first as usize },
        number => Judgement::Refused(Refusal::of(number, reply.first, reply.second)),
    }
}

/// Finds an order over `table` that passes and writes it to the first places of `order`.
///
/// The lowest place is filled first. At each place the bands that are left are tried in rising
/// order of their first row, and the first that passes there is placed; a band is a priority row
/// or a whole FIFO. If none passes, no order of these messages does.
///
/// Any input is answered: nothing need be checked beforehand. The refusals are 1 to 4 and 8; where
/// several are due, the one with the least number is given.
pub fn find(table: &[u32], order: &mut [u32]) -> Finding {
    let reply = ffi::find(table, order);
    match reply.number {
        FOUND => Finding::Found { tried: reply.first as usize },
        number => Finding::Refused(Refusal::of(number, reply.first, reply.second)),
    }
}

/// Reads a book and writes its words, six a row, to the first places of `words`.
///
/// Any bytes are answered: nothing need be checked beforehand. The refusals are 20, 2, 21, 22 and
/// 4; where several are due, the first of them in this order is given. Whether the words are a
/// table that can be judged is not asked here.
pub fn read_book(book: &[u8], words: &mut [u32]) -> Reading {
    let reply = ffi::book_read(book, words);
    match reply.number {
        READ => Reading::Read { rows: reply.first as usize },
        number => Reading::Refused(Refusal::of(number, reply.first, reply.second)),
    }
}

/// Writes these words, six a row, as a book to the first bytes of `book`: two bytes, and 28 a row.
///
/// Any words are answered, bad rows included: nothing need be checked beforehand. The refusals are
/// 1, 2 and 4; where several are due, the one with the least number is given.
pub fn write_book(words: &[u32], book: &mut [u8]) -> Writing {
    let reply = ffi::book_write(words, book);
    match reply.number {
        WRITTEN => Writing::Written { bytes: reply.first as usize },
        number => Writing::Refused(Refusal::of(number, reply.first, reply.second)),
    }
}
