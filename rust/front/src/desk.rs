//! The claim desk: a ledger in a file, in which one message after another is granted room on a bus.
//!
//! Whether there is room is decided by the library. Here the file is read, the library is asked,
//! and what it changed is on disk before anybody is told of it.

pub(crate) mod args;
mod ask;
mod cells;
mod crc;
pub mod file;
mod json;
mod lock;
mod refusal;
mod report;
mod store;
mod work;

use std::path::Path;

use crate::answer::Answer;
use crate::fault::Fault;
use crate::load::Source;
use crate::rate::Rate;
use crate::{Said, GOOD, NOT_GOOD, REFUSED};
use file::Held;
use report::{Complaint, Report};

/// What is asked of the desk.
#[derive(Debug, Clone, PartialEq, Eq)]
pub enum Task {
    /// Make a ledger that holds nothing.
    New {
        /// The bit rate, if times are in milliseconds.
        rate: Option<Rate>,
    },
    /// Claim room for one more message.
    Claim {
        /// What would stand on its line of a CSV.
        cells: [String; 6],
        /// The edition that the officer saw.
        edition: u32,
    },
    /// Withdraw a message that is held.
    Withdraw {
        /// Its name, or the number of its row.
        name: String,
        /// The edition that the officer saw.
        edition: u32,
    },
    /// Show what is held.
    Show,
}

/// What came of it.
enum Outcome {
    Made,
    Granted {
        name: String,
        row: usize,
    },
    Withdrawn {
        name: String,
        row: usize,
    },
    NoRoom {
        name: String,
        unplaced: usize,
        tried: usize,
    },
    /// With the answer of the finder; there is none to nothing.
    Shown(Option<Answer>),
}

/// What the desk says, and the ledger as it is then.
struct Reply {
    held: Held,
    outcome: Outcome,
}

/// Why the desk did nothing, and the edition of the ledger if it could be read.
struct TurnedDown {
    edition: Option<u32>,
    fault: Fault,
}

impl From<Fault> for TurnedDown {
    fn from(fault: Fault) -> TurnedDown {
        TurnedDown { edition: None, fault }
    }
}

impl Outcome {
    fn status(&self) -> u8 {
        match self {
            Outcome::NoRoom { .. } => NOT_GOOD,
            Outcome::Shown(Some(answer)) if !answer.is_good() => NOT_GOOD,
            _ => GOOD,
        }
    }
}

/// Does this at the desk with the ledger at this path, and says what came of it.
pub(crate) fn said(path: &Path, task: &Task, as_json: bool) -> Said {
    let file = &Source::Path(path.to_path_buf());
    match done(path, task) {
        Ok(reply) if as_json => Said::answer(json::reply(file, &reply), reply.outcome.status()),
        Ok(reply) => {
            let status = reply.outcome.status();
            Said::answer(Report { file, reply: &reply }.to_string(), status)
        }
        Err(down) if as_json => Said::answer(json::turned_down(file, &down), REFUSED),
        Err(down) => Said::complaint(Complaint { file, down: &down }.to_string()),
    }
}

fn done(path: &Path, task: &Task) -> Result<Reply, TurnedDown> {
    match task {
        Task::New { rate } => work::make(path, *rate),
        Task::Claim { cells, edition } => {
            work::change(path, |held| ask::claim(held, cells, *edition, path))
        }
        Task::Withdraw { name, edition } => {
            work::change(path, |held| ask::withdraw(held, name, *edition, path))
        }
        Task::Show => work::show(path),
    }
}
