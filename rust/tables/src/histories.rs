//! Histories at the claim desk: a ledger to start from, and claims and withdrawals one after the
//! other.
//!
//! What is held, and in which edition, depends on what was granted before, so a call says how its
//! numbers relate to those of the ledger at that moment.

use std::fmt;
use std::mem::replace;

use crate::extremes::at_the_edges;
use crate::fields::{Row, MAX_BITS};
use crate::ledgers::{self, light_row, spoil, Start, NEARLY_FULL};
use crate::plans::{share, vehicle_row};
use crate::prng::Prng;
use crate::show_table;
use crate::style::{Length, Style};

/// Calls in a history.
const CALLS: usize = 40;
/// Of a hundred claims, how many bring a row that was brought before; and of those that come right
/// after a withdrawal, which may have made room for it.
const AGAIN: u32 = 20;
const AGAIN_AFTER_WITHDRAWAL: u32 = 60;
/// Of a hundred claims, how many bring a bad row.
const BAD: u32 = 8;
/// Of a hundred claims, how many bring another number of words than six.
const OTHER_LENGTH: u32 = 4;

/// What happens at one desk.
#[derive(Debug, Clone, PartialEq, Eq)]
pub struct History {
    /// The seed it was made from.
    pub seed: u64,
    /// The ledger that is lent to the first call; each other call gets what the one before left.
    pub start: Start,
    /// The calls, first to last.
    pub calls: Vec<Call>,
}

/// One call of the desk.
#[derive(Debug, Clone, PartialEq, Eq)]
pub enum Call {
    /// A claim.
    Claim {
        /// The words that are lent as the row.
        row: Vec<u32>,
        /// The edition it names.
        seen: Seen,
    },
    /// A withdrawal.
    Withdrawal {
        /// The row it names.
        row: Named,
        /// The edition it names.
        seen: Seen,
    },
}

/// The edition that a call names.
#[derive(Debug, Clone, Copy, PartialEq, Eq)]
pub enum Seen {
    /// That of the ledger.
    Current,
    /// So many after that of the ledger, or before it.
    Off(i32),
    /// This one, whatever the ledger has.
    Fixed(u32),
}

/// The row that a withdrawal names.
#[derive(Debug, Clone, Copy, PartialEq, Eq)]
pub enum Named {
    /// One that is held, if any is: this number, with as many taken off as it takes.
    Within(u32),
    /// So many after the number of rows held, or before it: at -1 is the last one.
    FromHeld(i32),
    /// This one, whatever is held.
    Fixed(u32),
}

impl Seen {
    /// The edition to send, to a ledger of this edition.
    pub fn edition(self, current: u32) -> u32 {
        match self {
            Seen::Current => current,
            Seen::Off(by) => current.wrapping_add_signed(by),
            Seen::Fixed(edition) => edition,
        }
    }

    /// Mostly the current one, else often that of just before.
    fn any(prng: &mut Prng) -> Seen {
        match prng.below(100) {
            0..=79 => Seen::Current,
            80..=88 => Seen::Off(-1),
            89..=92 => Seen::Off(1),
            93..=95 => Seen::Off(prng.pick(&[-5, -2, 2, 256, 1 << 16, i32::MIN])),
            _ => Seen::Fixed(prng.pick(&[0, 0, 1, 2, u32::MAX - 1, u32::MAX])),
        }
    }
}

impl Named {
    /// The row number to send, to a ledger that holds so many rows.
    pub fn row(self, held: u32) -> u32 {
        match self {
            Named::Within(number) => number % held.max(1),
            Named::FromHeld(by) => held.wrapping_add_signed(by),
            Named::Fixed(row) => row,
        }
    }

    /// Mostly a row that is held.
    fn any(prng: &mut Prng) -> Named {
        match prng.below(100) {
            0..=59 => Named::Within(prng.word() as u32),
            60..=69 => Named::FromHeld(-1),
            70..=74 => Named::Fixed(0),
            75..=84 => Named::FromHeld(0),
            85..=92 => Named::FromHeld(prng.pick(&[1, 2, 64, 256, 1 << 16, i32::MAX])),
            _ => Named::Fixed(prng.pick(&[63, 64, 65, 1 << 31, u32::MAX])),
        }
    }
}

/// The history of this seed.
pub fn history(seed: u64) -> History {
    let mut prng = Prng::new(seed);
    let style = Style::any(&mut prng);
    let start = ledgers::any(&style, &mut prng);
    let usual = match start.held {
        // Where the row limit is near, it is to be reached.
        NEARLY_FULL.. => light_row,
        _ => prng.pick(&[light_row, light_row, vehicle_row, small, small, heavy, heavy]),
    };
    let withdrawals = prng.pick(&[10, 25, 25, 45]);
    let mut brought: Vec<Row> = Vec::new();
    let mut again = AGAIN;
    let mut call = || {
        let seen = Seen::any(&mut prng);
        if prng.chance(withdrawals) {
            again = AGAIN_AFTER_WITHDRAWAL;
            return Call::Withdrawal { row: Named::any(&mut prng), seen };
        }
        let again = prng.chance(replace(&mut again, AGAIN)) && !brought.is_empty();
        let row = if again {
            brought[brought.len() - 1 - prng.below(brought.len().min(2))]
        } else {
            let maker = prng.pick(&[usual, usual, usual, light_row, heavy, edge]);
            let new = maker(&style, &mut prng);
            brought.push(new);
            new
        };
        Call::Claim { row: lent_row(row, &mut prng), seen }
    };
    let calls = (0..CALLS).map(|_| call()).collect();
    History { seed, start, calls }
}

/// The words that are lent as this row: mostly its own, now and then with a bad one among them, or
/// more or fewer than six.
fn lent_row(mut row: Row, prng: &mut Prng) -> Vec<u32> {
    if prng.chance(BAD) {
        spoil(&mut row, prng);
    }
    let mut lent = row.to_vec();
    if prng.chance(OTHER_LENGTH) {
        lent.extend(row);
        lent.truncate(prng.pick(&[0, 1, 5, 5, 7, 7, 12]));
    }
    lent
}

/// A row of small numbers, of which about six fill the bus: here one bit time more or less tells.
fn small(style: &Style, prng: &mut Prng) -> Row {
    let load = prng.between(50, 120);
    share(style, Length::bits(1, 12, prng), 6, load, prng)
}

/// A row of any length, of which a few fill the bus.
fn heavy(style: &Style, prng: &mut Prng) -> Row {
    let rows = prng.between(2, 8);
    share(style, Length::either(1, MAX_BITS, prng), rows, 80, prng)
}

/// A row whose fields are at an end of what is allowed, or next to it.
fn edge(_: &Style, prng: &mut Prng) -> Row {
    let rows = at_the_edges(prng);
    prng.pick(&rows)
}

impl fmt::Display for History {
    fn fmt(&self, f: &mut fmt::Formatter) -> fmt::Result {
        show_table(f, self.seed, &self.start.words)?;
        writeln!(f, "{} rows held in edition {}", self.start.held, self.start.edition)?;
        self.calls.iter().try_for_each(|call| writeln!(f, "  {call:?}"))
    }
}
