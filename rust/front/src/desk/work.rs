//! What is done with the file of a ledger: it is made, read, and changed by one at a time.

use std::fs::{self, Permissions};
use std::io::{self, ErrorKind};
use std::path::Path;

use super::file::{self, Held};
use super::lock::{self, Lock};
use super::{store, Outcome, Reply, TurnedDown};
use crate::answer;
use crate::fault::Fault;
use crate::load::Source;
use crate::rate::Rate;

/// Makes a ledger where there is no file yet.
pub fn make(path: &Path, rate: Option<Rate>) -> Result<Reply, TurnedDown> {
    // Twice: a file that is there gets no lock beside it, and another officer may be as quick.
    refuse_existing(path)?;
    let place = lock::place_of_new(path)?;
    let _lock = Lock::take(&place)?;
    refuse_existing(path)?;
    let held = Held::fresh(rate);
    store::put(&place, &file::write(&held)?, None).map_err(|unstored| TurnedDown {
        edition: unstored.is_replaced().then_some(held.ledger.edition),
        fault: unstored.fault(),
    })?;
    Ok(Reply { held, outcome: Outcome::Made })
}

fn refuse_existing(path: &Path) -> Result<(), TurnedDown> {
    // Of a symbolic link to nothing, too: who made it meant something by it.
    match fs::symlink_metadata(path) {
        Err(error) if error.kind() == ErrorKind::NotFound => return Ok(()),
        Err(error) => return Err(unreadable(error).into()),
        Ok(_) => (),
    }
    let edition = load(path).ok().map(|held| held.ledger.edition);
    let message = "there is a file of this name already, and it is left as it is: a new ledger \
                   needs a name of its own";
    Err(TurnedDown { edition, fault: Fault::new(message) })
}

/// Lets the ledger be changed, and keeps what it is then.
pub fn change(
    path: &Path,
    ask: impl FnOnce(&mut Held) -> Result<Outcome, Fault>,
) -> Result<Reply, TurnedDown> {
    // What is no ledger gets no lock beside it.
    load(path)?;
    let place = fs::canonicalize(path).map_err(unreadable)?;
    let _lock = Lock::take(&place)?;
    let before = load(&place)?;
    let edition = before.ledger.edition;
    let as_it_was = |fault| TurnedDown { edition: Some(edition), fault };
    let permissions = writable(&place).map_err(as_it_was)?;
    let mut held = before.clone();
    let outcome = ask(&mut held).map_err(as_it_was)?;
    if held != before {
        let bytes = file::write(&held).map_err(as_it_was)?;
        store::put(&place, &bytes, Some(permissions)).map_err(|unstored| {
            let now = if unstored.is_replaced() { held.ledger.edition } else { edition };
            TurnedDown { edition: Some(now), fault: unstored.fault() }
        })?;
    }
    Ok(Reply { held, outcome })
}

/// The permissions of this ledger, if they let it be changed: it is another file that takes its
/// place, so the system would not ask.
fn writable(place: &Path) -> Result<Permissions, Fault> {
    let permissions = fs::metadata(place).map_err(unreadable)?.permissions();
    match permissions.readonly() {
        true => Err(Fault::new("the ledger is read-only, and is left as it is")),
        false => Ok(permissions),
    }
}

/// The ledger in this file.
fn load(path: &Path) -> Result<Held, Fault> {
    // Not to wait for a pipe that nobody writes to.
    if !fs::metadata(path).map_err(unreadable)?.is_file() {
        return Err(Fault::new("this is not a ledger: a ledger is a file"));
    }
    file::read(&Source::Path(path.to_path_buf()).load(&mut io::empty())?)
}

fn unreadable(error: io::Error) -> Fault {
    let hint = match error.kind() {
        ErrorKind::NotFound => "; telhavina desk LEDGER new makes a ledger",
        _ => "",
    };
    Fault::new(format!("the file cannot be read: {error}{hint}"))
}

/// What is held, and the order that the finder gives for it. A ledger is replaced as a whole, so no
/// lock is needed to read one.
pub fn show(path: &Path) -> Result<Reply, TurnedDown> {
    let held = load(path)?;
    let edition = Some(held.ledger.edition);
    let answer = match held.names.is_empty() {
        true => None,
        false => {
            let found = answer::find(&held.table());
            Some(found.map_err(|fault| TurnedDown { edition, fault })?)
        }
    };
    Ok(Reply { held, outcome: Outcome::Shown(answer) })
}
