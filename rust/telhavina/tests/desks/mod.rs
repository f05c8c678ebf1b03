//! The claim desk of the library beside that of the second program: each call is put to both, and
//! both must give the same reply and leave the same ledger.

use std::fmt::Display;

use second::{desk, Reply};
use tables::{Call, History, Prng};
use telhavina::{Claim, Ledger, Withdrawal};

use crate::compare::{number, refused, same};

/// The edition at which a ledger is closed.
pub const LAST: u32 = 4_294_967_295;

/// A call with its numbers, as it is put to a ledger.
#[derive(Debug)]
pub enum Asked<'a> {
    Claim { row: &'a [u32], edition: u32 },
    Withdrawal { row: u32, edition: u32 },
}

/// A ledger of the library and one of the second program, with the same in both.
#[derive(Clone)]
pub struct Desks {
    pub library: Ledger,
    second: desk::Ledger,
}

impl Desks {
    fn of(words: [u32; 384], held: u32, edition: u32) -> Desks {
        let second = desk::Ledger { words, held, edition };
        Desks { library: Ledger { words, held, edition }, second }
    }

    /// The ledger that this history starts from.
    pub fn at_the_start(history: &History) -> Desks {
        Desks::of(history.start.words, history.start.held, history.start.edition)
    }

    /// These rows, in any edition but the last, and with any words behind them.
    pub fn holding(rows: &[u32], prng: &mut Prng) -> Desks {
        let mut words = std::array::from_fn(|_| prng.word() as u32);
        words[..rows.len()].copy_from_slice(rows);
        Desks::of(words, number(rows.len() / 6), prng.between(0, LAST - 1))
    }

    /// This call with the numbers that it has now.
    pub fn asked<'a>(&self, call: &'a Call) -> Asked<'a> {
        let Ledger { held, edition, .. } = self.library;
        match call {
            Call::Claim { row, seen } => Asked::Claim { row, edition: seen.edition(edition) },
            Call::Withdrawal { row, seen } => {
                Asked::Withdrawal { row: row.row(held), edition: seen.edition(edition) }
            }
        }
    }

    /// Both desks give the same reply, which is given back, and leave the same ledger.
    #[track_caller]
    pub fn put(&mut self, asked: &Asked, case: &impl Display) -> Reply {
        let (reply, expected) = match *asked {
            Asked::Claim { row, edition } => (
                as_reply(telhavina::claim(&mut self.library, row, edition)),
                desk::claim(&mut self.second, row, edition),
            ),
            Asked::Withdrawal { row, edition } => (
                withdrawn_as_reply(telhavina::withdraw(&mut self.library, row, edition)),
                desk::withdraw(&mut self.second, row, edition),
            ),
        };
        let (library, second) = (&self.library, &self.second);
        let left = [&library.words[..], &[library.held, library.edition]].concat();
        let expected_left = [&second.words[..], &[second.held, second.edition]].concat();
        same(&format_args!("{case}\n{asked:?}"), (reply, left), (expected, expected_left)).0
    }
}

/// What comes of a claim at the library's desk as the second program would say it.
fn as_reply(claim: Claim) -> Reply {
    match claim {
        Claim::Granted { edition } => Reply::Granted(edition),
        Claim::Refused(refusal) => refused(refusal),
    }
}

/// So with a withdrawal.
fn withdrawn_as_reply(withdrawal: Withdrawal) -> Reply {
    match withdrawal {
        Withdrawal::Withdrawn { edition } => Reply::Withdrawn(edition),
        Withdrawal::Refused(refusal) => refused(refusal),
    }
}
