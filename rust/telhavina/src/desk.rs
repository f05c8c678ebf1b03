//! The claim desk: one more row is granted if there is room, and a granted one is withdrawn.

use crate::ffi;
use crate::{Ledger, Refusal};

const GRANTED: u32 = 105;
const WITHDRAWN: u32 = 106;

/// What comes of a claim.
#[derive(Debug, Clone, Copy, PartialEq, Eq)]
#[must_use]
pub enum Claim {
    /// The row is held, as the last one: there is an order of all held rows that passes.
    Granted {
        /// The edition that the ledger has now.
        edition: u32,
    },
    /// The claim could not be taken, or there is no room; the ledger is as it was.
    Refused(Refusal),
}

/// What comes of a withdrawal.
#[derive(Debug, Clone, Copy, PartialEq, Eq)]
#[must_use]
pub enum Withdrawal {
    /// The row is no longer held, and those behind it have moved up by one.
    Withdrawn {
        /// The edition that the ledger has now.
        edition: u32,
    },
    /// The withdrawal could not be taken; the ledger is as it was.
    Refused(Refusal),
}

/// Claims room for `row`, six words, on the bus of this ledger; `edition` is the one that the
/// claimant saw.
///
/// Any input is answered: nothing need be checked beforehand. The refusals are 23, 1, 3, 9, 10, 2
/// and 8; where several are due, the first of them in this order is given.
pub fn claim(ledger: &mut Ledger, row: &[u32], edition: u32) -> Claim {
    let reply = ffi::claim(ledger, row, edition);
    match reply.number {
        GRANTED => Claim::Granted { edition: reply.first },
        number => Claim::Refused(Refusal::of(number, reply.first, reply.second)),
    }
}

/// Withdraws the held row of this number, counted from 0; `edition` is the one that the claimant
/// saw.
///
/// Any input is answered: nothing need be checked beforehand. The refusals are 23, 9, 10 and 11;
/// where several are due, the first of them in this order is given.
pub fn withdraw(ledger: &mut Ledger, row: u32, edition: u32) -> Withdrawal {
    let reply = ffi::withdraw(ledger, row, edition);
    match reply.number {
        WITHDRAWN => Withdrawal::Withdrawn { edition: reply.first },
        number => Withdrawal::Refused(Refusal::of(number, reply.first, reply.second)),
    }
}
