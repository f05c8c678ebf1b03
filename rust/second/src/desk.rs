//! The claim desk: a ledger of granted rows that is lent to each call and changed in place. Written
//! from request L4.
//!
//! A call names the edition that its sender saw. Each change makes a new one, so what was asked for
//! an older ledger changes nothing.

use crate::find::find_order;
use crate::row::{Row, FIELDS};
use crate::sums::ConstantAndLengths;
use crate::{Reply, MAX_ROWS};

/// The rows that were granted and not withdrawn, oldest first. Any ledger may be lent, also one
/// that no desk has made.
#[derive(Debug, Clone, PartialEq, Eq)]
pub struct Ledger {
    /// The words of the held rows, six a row; those behind them mean nothing.
    pub words: [u32; FIELDS * MAX_ROWS],
    /// How many rows are held.
    pub held: u32,
    /// How often the ledger was changed; at the greatest number it is closed.
    pub edition: u32,
}

impl Ledger {
    /// The ledger of a desk that has granted nothing yet.
    pub fn fresh() -> Ledger {
        Ledger { words: [0; FIELDS * MAX_ROWS], held: 0, edition: 0 }
    }

    /// The held rows, or refusal 23.
    fn rows(&self) -> Result<Vec<Row>, Reply> {
        let (places, _) = self.words.as_chunks();
        let held = places.get(..self.held as usize).ok_or(Reply::BadLedger)?;
        held.iter().map(|words| Row::read(words).map_err(|_| Reply::BadLedger)).collect()
    }

    /// The edition after a change by someone who saw the edition `seen`, or refusal 9 or 10.
    fn next_edition(&self, seen: u32) -> Result<u32, Reply> {
        let next = self.edition.checked_add(1).ok_or(Reply::Closed)?;
        if seen != self.edition {
            return Err(Reply::OtherEdition);
        }
        Ok(next)
    }
}

/// Claims room on the bus for one row, which is added behind the held ones if all of them together
/// have an order.
///
/// A refusal alters nothing, and no word but the six of the new row is ever written.
pub fn claim(ledger: &mut Ledger, row: &[u32], edition: u32) -> Reply {
    match granted(ledger, row, edition) {
        Ok(edition) => Reply::Granted(edition),
        Err(refusal) => refusal,
    }
}

/// Takes the row of this number out and moves those behind it up, so that its room can be claimed
/// again.
///
/// A refusal alters nothing, and no word behind the rows that are left is ever written.
pub fn withdraw(ledger: &mut Ledger, row: u32, edition: u32) -> Reply {
    match withdrawn(ledger, row, edition) {
        Ok(edition) => Reply::Withdrawn(edition),
        Err(refusal) => refusal,
    }
}

/// The new edition, or the first refusal of 23, 1, 3, 9, 10, 2 and 8 that is due.
fn granted(ledger: &mut Ledger, words: &[u32], seen: u32) -> Result<u32, Reply> {
    let mut rows = ledger.rows()?;
    let words: &[u32; FIELDS] = words.try_into().map_err(|_| Reply::Ragged)?;
    let row = Row::read(words).map_err(|field| Reply::BadRow { row: 0, field })?;
    let next = ledger.next_edition(seen)?;
    let (places, _) = ledger.words.as_chunks_mut();
    let place = places.get_mut(rows.len()).ok_or(Reply::TooMany)?;
    rows.push(row);
    find_order::<ConstantAndLengths>(&rows)?;
    *place = *words;
    ledger.held += 1;
    ledger.edition = next;
    Ok(next)
}

/// The new edition, or the first refusal of 23, 9, 10 and 11 that is due.
fn withdrawn(ledger: &mut Ledger, row: u32, seen: u32) -> Result<u32, Reply> {
    let held = ledger.rows()?.len();
    let next = ledger.next_edition(seen)?;
    if row >= ledger.held {
        return Err(Reply::NoSuchRow);
    }
    let gap = FIELDS * row as usize;
    // The last row's words also stay where they were: they are behind the rows now.
    ledger.words.copy_within(gap + FIELDS..FIELDS * held, gap);
    ledger.held -= 1;
    ledger.edition = next;
    Ok(next)
}
