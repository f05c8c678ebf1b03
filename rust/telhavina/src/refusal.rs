//! The refusals, with their numbers and in words.

use std::error::Error;
use std::fmt;

/// Why a question was refused. Rows and places count from 0, fields from 1.
///
/// Judging can give 1 to 7, finding 1 to 4 and 8, reading a book 20, 2, 21, 22 and 4, writing one
/// 1, 2 and 4, claiming 23, 1, 3, 9, 10, 2 and 8, and withdrawing 23, 9, 10 and 11.
#[derive(Debug, Clone, Copy, PartialEq, Eq)]
pub enum Refusal {
    /// 1: the table has no words, or not a multiple of six; the claimed row has not six.
    Ragged,
    /// 2: the table has more than 64 rows, or the book says so; the ledger holds 64 already.
    TooMany,
    /// 3: a word of the table, or of the claimed row, is not allowed in its field.
    BadRow {
        /// The lowest bad row; 0 for a claimed one.
        row: usize,
        /// Its lowest bad field, 1 to 6.
        field: usize,
    },
    /// 4: the list lent for the answer has no room for it.
    NoRoom,
    /// 5: the order has not as many entries as the table has rows.
    OrderLength,
    /// 6: an entry of the order is no row of the table, or repeats an earlier one.
    OrderEntry {
        /// The first such place in the order.
        place: usize,
    },
    /// 7: the order comes back to a FIFO that it had left.
    SplitQueue {
        /// The first place that does.
        place: usize,
    },
    /// 8: no order of these messages passes; for a claim, none of the held ones and this one. At
    /// some place, counted from the lowest up, none of the bands that were left passes; a band is a
    /// priority row or a whole FIFO.
    NoOrder {
        /// The bands that were left.
        unplaced: usize,
        /// How many bands were tried, at all places together.
        tried: usize,
    },
    /// 9: the ledger is closed: its edition is the last that there is, 4294967295.
    Closed,
    /// 10: the ledger has another edition than the claimant saw.
    OtherEdition,
    /// 11: the ledger holds no row of this number.
    NoSuchRow,
    /// 20: the book has fewer than two bytes, or says that it has no row.
    EmptyBook,
    /// 21: the book has not the length of a book with its number of rows.
    BookLength,
    /// 22: the book says that a row starts where it does not.
    BookOffset {
        /// The first such row.
        row: usize,
    },
    /// 23: the ledger says that it holds more than 64 rows, or a row that it holds is not allowed.
    BadLedger,
}

impl Refusal {
    /// The refusal with this number that carries these.
    pub(crate) fn of(number: u32, first: u32, second: u32) -> Refusal {
        let (first, second) = (first as usize, second as usize);
        match number {
            1 => Refusal::Ragged,
            2 => Refusal::TooMany,
            3 => Refusal::BadRow { row: first, field: second },
            4 => Refusal::NoRoom,
            5 => Refusal::OrderLength,
            6 => Refusal::OrderEntry { place: first },
            7 => Refusal::SplitQueue { place: first },
            8 => Refusal::NoOrder { unplaced: first, tried: second },
            9 => Refusal::Closed,
            10 => Refusal::OtherEdition,
            11 => Refusal::NoSuchRow,
            20 => Refusal::EmptyBook,
            21 => Refusal::BookLength,
            22 => Refusal::BookOffset { row: first },
            23 => Refusal::BadLedger,
            _ => {
                unreachable!("the library replied {number}, which is no refusal of the desk's list")
            }
        }
    }

    /// Its number in the desk's list.
    pub fn number(&self) -> u32 {
        match self {
            Refusal::Ragged => 1,
            Refusal::TooMany => 2,
            Refusal::BadRow { .. } => 3,
            Refusal::NoRoom => 4,
            Refusal::OrderLength => 5,
            Refusal::OrderEntry { .. } => 6,
            Refusal::SplitQueue { .. } => 7,
            Refusal::NoOrder { .. } => 8,
            Refusal::Closed => 9,
            Refusal::OtherEdition => 10,
            Refusal::NoSuchRow => 11,
            Refusal::EmptyBook => 20,
            Refusal::BookLength => 21,
            Refusal::BookOffset { .. } => 22,
            Refusal::BadLedger => 23,
        }
    }
}

impl fmt::Display for Refusal {
    fn fmt(&self, f: &mut fmt::Formatter) -> fmt::Result {
        write!(f, "Refusal {}: ", self.number())?;
        match self {
            Refusal::Ragged => write!(
                f,
                "the table has no words, or not a multiple of six, or the claimed row not six."
            ),
            Refusal::TooMany => write!(
                f,
                "the table, or the book, has more than 64 rows, or the ledger holds 64 already."
            ),
            Refusal::BadRow { row, field } => {
                write!(f, "field {field} of row {row} is not allowed.")
            }
            Refusal::NoRoom => {
                write!(f, "the list lent for the answer has no room for it.")
            }
            Refusal::OrderLength => write!(f, "the order has not one entry for each row."),
            Refusal::OrderEntry { place } => {
                write!(f, "place {place} of the order holds no row of the table, or one repeated.")
            }
            Refusal::SplitQueue { place } => {
                write!(f, "place {place} of the order resumes a FIFO that was already left.")
            }
            Refusal::NoOrder { unplaced, tried } => write!(
                f,
                "no order of these messages passes (bands left without a place: {unplaced}, bands \
                 tried: {tried})."
            ),
            Refusal::Closed => {
                write!(f, "the ledger is closed: its edition is the last that there is.")
            }
            Refusal::OtherEdition => {
                write!(f, "the ledger has another edition than the one that was sent.")
            }
            Refusal::NoSuchRow => write!(f, "the ledger holds no row of this number."),
            Refusal::EmptyBook => {
                write!(f, "the book has fewer than two bytes, or says that it has no row.")
            }
            Refusal::BookLength => {
                write!(f, "the book has not the length of a book with its number of rows.")
            }
            Refusal::BookOffset { row } => {
                write!(f, "the book says that row {row} starts where it does not.")
            }
            Refusal::BadLedger => {
                write!(f, "the ledger holds more than 64 rows, or a row that is not allowed.")
            }
        }
    }
}

impl Error for Refusal {}
