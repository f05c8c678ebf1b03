//! What is put to the library at the desk, and what it makes of the ledger. The names of the rows
//! are kept in step.

use std::path::Path;

use telhavina::{Claim, Refusal, Withdrawal};

use super::cells;
use super::file::Held;
use super::refusal::{in_words, no_such_row};
use super::Outcome;
use crate::fault::{Column, Fault};
use crate::lines::trimmed;
use crate::load::Source;
use crate::order::{as_argument, Names};
use crate::refusal::bad_field;
use crate::shown::Quoted;

/// A row number that no ledger holds, for what is no message at all: whether the edition is right
/// comes first, and is for the library to say.
const NO_ROW: u32 = u32::MAX;

/// Claims room for the message that these cells tell, in the ledger at this path.
pub fn claim(
    held: &mut Held,
    cells: &[String; 6],
    edition: u32,
    path: &Path,
) -> Result<Outcome, Fault> {
    let message = cells::message(cells, held.rate)?;
    if let Some(row) = held.names.iter().position(|name| *name == message.name) {
        let name = Quoted(&message.name);
        let why =
            format!("{name} is already the name of row {row}, which is held: expected another");
        return Err(Fault::new(why).in_column(Column::Name));
    }
    let (name, row) = (message.name.clone(), held.names.len());
    match telhavina::claim(&mut held.ledger, &message.words(), edition) {
        Claim::Granted { .. } => {
            held.names.push(name.clone());
            Ok(Outcome::Granted { name, row })
        }
        Claim::Refused(Refusal::NoOrder { unplaced, tried }) => {
            Ok(Outcome::NoRoom { name, unplaced, tried })
        }
        Claim::Refused(refusal @ Refusal::BadRow { field, .. }) => {
            Err(bad_field(&message, field, held.rate).refusal(refusal.number()))
        }
        Claim::Refused(refusal) => Err(in_words(refusal, held, edition, &shell(path))),
    }
}

/// Withdraws the message of this name, or of this row number.
pub fn withdraw(
    held: &mut Held,
    written: &str,
    edition: u32,
    path: &Path,
) -> Result<Outcome, Fault> {
    let table = held.table();
    let names = Names::of(&table);
    let written = trimmed(written);
    let row = names.one(written)?.unwrap_or(NO_ROW);
    match telhavina::withdraw(&mut held.ledger, row, edition) {
        Withdrawal::Withdrawn { .. } => {
            let row = row as usize;
            let is_named = row < held.names.len();
            let name = if is_named { held.names.remove(row) } else { String::new() };
            Ok(Outcome::Withdrawn { name, row })
        }
        Withdrawal::Refused(Refusal::NoSuchRow) => Err(no_such_row(held, &names, written)),
        Withdrawal::Refused(refusal) => Err(in_words(refusal, held, edition, &shell(path))),
    }
}

/// The path as it is typed.
fn shell(path: &Path) -> String {
    as_argument(&Source::Path(path.to_path_buf()).argument())
}
