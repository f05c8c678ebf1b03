//! The lock beside a ledger: who has it may change the ledger, and nobody else.

use std::ffi::OsString;
use std::fs::{self, File};
use std::io::{self, ErrorKind};
use std::path::{Path, PathBuf};

use crate::fault::Fault;
use crate::shown::Shown;

/// What the name of the lock ends in.
const ENDING: &str = ".lock";

/// Held from before a ledger is read until after it is replaced. The system takes it back from a
/// program that ends in any way, so a lock file that is left over hinders nobody; it is never
/// removed, because who waits for it has it open already.
pub struct Lock {
    _file: File,
}

impl Lock {
    /// Waits until nobody else has the lock of the ledger in this place.
    pub fn take(place: &Path) -> Result<Lock, Fault> {
        let path = with_ending(place, ENDING);
        let locked = open(&path).and_then(|file| {
            file.lock()?;
            Ok(Lock { _file: file })
        });
        locked.map_err(|error| {
            let path = path.to_string_lossy();
            Fault::new(format!("the ledger cannot be locked ({}): {error}", Shown(&path)))
        })
    }
}

/// To lock a file it need not be written to, and it may be another officer's.
fn open(path: &Path) -> io::Result<File> {
    let opened = File::options().read(true).write(true).create(true).truncate(false).open(path);
    match opened {
        Err(error) if error.kind() == ErrorKind::PermissionDenied => {
            File::open(path).map_err(|_| error)
        }
        opened => opened,
    }
}

/// The path with this after the name of the file.
pub fn with_ending(path: &Path, ending: &str) -> PathBuf {
    let mut path = OsString::from(path);
    path.push(ending);
    PathBuf::from(path)
}

/// Where a ledger that is not there yet will be, if its directory is there: whatever way leads to
/// it, its lock is the same.
pub fn place_of_new(path: &Path) -> Result<PathBuf, Fault> {
    let directory = match path.parent() {
        Some(parent) if parent != Path::new("") => parent,
        _ => Path::new("."),
    };
    let cannot = |why: &str| Fault::new(format!("the ledger cannot be made: {why}"));
    let directory = fs::canonicalize(directory).map_err(|error| cannot(&error.to_string()))?;
    match path.file_name() {
        Some(name) => Ok(directory.join(name)),
        None => Err(cannot("the path names no file")),
    }
}
