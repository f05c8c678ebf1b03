//! What the library answers beside what the second program does, in the words of the second.

use std::fmt::{Debug, Display};

use second::Reply;
use telhavina::Refusal;

/// A reply, and what the lent list of words, or of bytes, holds then.
pub type Outcome<T = u32> = (Reply, Vec<T>);

/// The outcome that both programs give on this case.
#[track_caller]
pub fn same<T: PartialEq + Debug>(
    case: &impl Display,
    library: Outcome<T>,
    second: Outcome<T>,
) -> Outcome<T> {
    assert!(
        library == second,
        "{case}\nthe library: {:?}\n  {:?}\nthe second program: {:?}\n  {:?}",
        library.0,
        library.1,
        second.0,
        second.1
    );
    library
}

/// The kind of a reply, for counting.
pub fn kind(reply: Reply) -> &'static str {
    match reply {
        Reply::Passed => "passed",
        Reply::Late(_) => "late",
        Reply::Found(_) => "found",
        Reply::BookRead(_) => "book read",
        Reply::BookWritten(_) => "book written",
        Reply::Granted(_) => "granted",
        Reply::Withdrawn(_) => "withdrawn",
        Reply::Ragged => "1 ragged",
        Reply::TooMany => "2 too many",
        Reply::BadRow { .. } => "3 bad row",
        Reply::NoRoom => "4 no room",
        Reply::OrderLength => "5 order length",
        Reply::OrderEntry(_) => "6 order entry",
        Reply::SplitQueue(_) => "7 split queue",
        // At the lowest place already, or at a higher one.
        Reply::NoOrder { unplaced, tried } if tried == unplaced => "8 no order, at once",
        Reply::NoOrder { .. } => "8 no order, later",
        Reply::Closed => "9 closed",
        Reply::OtherEdition => "10 other edition",
        Reply::NoSuchRow => "11 no such row",
        Reply::EmptyBook => "20 empty book",
        Reply::BookLength => "21 book length",
        Reply::BookOffset(0) => "22 book offset, row 0",
        Reply::BookOffset(_) => "22 book offset, later",
        Reply::BadLedger => "23 bad ledger",
    }
}

/// The library's refusal as the second program would say it.
pub fn refused(refusal: Refusal) -> Reply {
    match refusal {
        Refusal::Ragged => Reply::Ragged,
        Refusal::TooMany => Reply::TooMany,
        Refusal::BadRow { row, field } => Reply::BadRow { row: number(row), field: number(field) },
        Refusal::NoRoom => Reply::NoRoom,
        Refusal::OrderLength => Reply::OrderLength,
        Refusal::OrderEntry { place } => Reply::OrderEntry(number(place)),
        Refusal::SplitQueue { place } => Reply::SplitQueue(number(place)),
        Refusal::NoOrder { unplaced, tried } => {
            Reply::NoOrder { unplaced: number(unplaced), tried: number(tried) }
        }
        Refusal::Closed => Reply::Closed,
        Refusal::OtherEdition => Reply::OtherEdition,
        Refusal::NoSuchRow => Reply::NoSuchRow,
        Refusal::EmptyBook => Reply::EmptyBook,
        Refusal::BookLength => Reply::BookLength,
        Refusal::BookOffset { row } => Reply::BookOffset(number(row)),
        Refusal::BadLedger => Reply::BadLedger,
    }
}

/// What a reply carries, as the second program counts it.
pub fn number(carried: usize) -> u32 {
    u32::try_from(carried).expect("rows, fields, places, bands and bytes are few")
}
