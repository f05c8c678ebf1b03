//! What the desk says, as a person reads it. Each answer starts with the ledger and its edition.

use std::fmt;

use super::{Outcome, Reply, TurnedDown};
use crate::answer::Answer;
use crate::load::Source;
use crate::order::{as_argument, Names};
use crate::report::{self, times};
use crate::shown::{count, Quoted, Shown};

/// What came of it.
pub struct Report<'a> {
    /// The file of the ledger.
    pub file: &'a Source,
    /// What is said.
    pub reply: &'a Reply,
}

/// Why nothing came of it.
pub struct Complaint<'a> {
    /// The file of the ledger.
    pub file: &'a Source,
    /// What is said.
    pub down: &'a TurnedDown,
}

impl fmt::Display for Report<'_> {
    fn fmt(&self, f: &mut fmt::Formatter) -> fmt::Result {
        let held = &self.reply.held;
        write!(f, "{}, edition {}: ", Shown(&self.file.name()), held.ledger.edition)?;
        match &self.reply.outcome {
            Outcome::Made => writeln!(f, "made: a ledger that holds nothing, {}", times(held.rate)),
            Outcome::Granted { name, row } => {
                writeln!(f, "granted: {} is held as row {row}", Quoted(name))
            }
            Outcome::Withdrawn { name, row } => {
                writeln!(f, "withdrawn: {}, which was row {row}, is no longer held", Quoted(name))
            }
            Outcome::NoRoom { name, unplaced, tried } => writeln!(
                f,
                "no room: no order passes with {} added ({} cannot be placed, {tried} tried)",
                Quoted(name),
                count(*unplaced, "band")
            ),
            Outcome::Shown(None) => {
                writeln!(f, "empty: no message is held, {}", times(held.rate))
            }
            Outcome::Shown(Some(answer)) => self.shown(f, answer),
        }
    }
}

impl Report<'_> {
    fn shown(&self, f: &mut fmt::Formatter, answer: &Answer) -> fmt::Result {
        let table = &self.reply.held.table();
        writeln!(f, "{}, {}", count(table.messages.len(), "message"), times(table.rate))?;
        if let Some((unplaced, tried)) = answer.no_order() {
            let bands = count(unplaced, "band");
            return writeln!(f, "no order: {bands} cannot be placed, {tried} tried");
        }
        report::Report { file: self.file, table, answer }.table(f)?;
        let order = Names::of(table).write(answer.judged.iter().map(|judged| judged.row));
        writeln!(f, "shown: order {} ({} tried)", as_argument(&order), answer.tried())
    }
}

impl fmt::Display for Complaint<'_> {
    fn fmt(&self, f: &mut fmt::Formatter) -> fmt::Result {
        let TurnedDown { edition, fault } = self.down;
        write!(f, "{}", Shown(&self.file.name()))?;
        if let Some(edition) = edition {
            write!(f, ", edition {edition}")?;
        }
        match (fault.line, fault.column) {
            // The fault names them itself.
            (Some(_), _) => write!(f, ", ")?,
            (None, Some(column)) => write!(f, ", column {column}: ")?,
            (None, None) => write!(f, ": ")?,
        }
        writeln!(f, "{fault}")
    }
}
