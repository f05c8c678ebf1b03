//! A ledger on disk, replaced as a whole: whatever happens, the old one is there or the new one.

use std::ffi::OsStr;
use std::fs::{self, File, OpenOptions, Permissions};
use std::hash::{BuildHasher, RandomState};
use std::io::{self, Write};
use std::path::{Path, PathBuf};

use super::lock::with_ending;
use crate::fault::Fault;

/// What the name of a new ledger ends in until it takes the place of the old one.
const ENDING: &str = ".tmp";
/// The digits before that, which make it a name that nobody else uses.
const DIGITS: usize = 16;

/// Why a ledger is not stored, or not for certain.
pub enum Unstored {
    /// What was there is there still.
    AsItWas(io::Error),
    /// The new one is there, but might not outlast a failure of the power.
    Replaced(io::Error),
}

impl Unstored {
    /// Whether the new ledger is in its place.
    pub fn is_replaced(&self) -> bool {
        matches!(self, Unstored::Replaced(_))
    }

    /// The same in words.
    pub fn fault(&self) -> Fault {
        Fault::new(match self {
            Unstored::AsItWas(error) => {
                format!("the ledger cannot be written, and is as it was: {error}")
            }
            Unstored::Replaced(error) => format!(
                "the ledger was replaced, but it is not certain that it is on disk: {error}; look \
                 at it again"
            ),
        })
    }
}

/// Puts these bytes in this place, with these permissions if there are any to keep. It is for who
/// has the lock: whatever another call has left over belongs to nobody.
pub fn put(place: &Path, bytes: &[u8], permissions: Option<Permissions>) -> Result<(), Unstored> {
    remove_left_over(place);
    let digits = format!("{:0DIGITS$x}", RandomState::new().hash_one(bytes));
    let new = with_ending(place, &format!(".{digits}{ENDING}"));
    let moved = written(&new, bytes, permissions).and_then(|()| fs::rename(&new, place));
    moved.map_err(|error| {
        // If it cannot be removed, the next call that has the lock will try.
        let _ = fs::remove_file(&new);
        Unstored::AsItWas(error)
    })?;
    sync_directory(place).map_err(Unstored::Replaced)
}

/// A new file with these bytes, on disk.
fn written(path: &Path, bytes: &[u8], permissions: Option<Permissions>) -> io::Result<()> {
    let mut options = OpenOptions::new();
    options.write(true).create_new(true);
    if permissions.is_some() {
        for_nobody_else(&mut options);
    }
    let mut file = options.open(path)?;
    file.write_all(bytes)?;
    if let Some(permissions) = permissions {
        file.set_permissions(permissions)?;
    }
    file.sync_all()
}

/// Until it has the permissions of the old one, nobody else may read the new one.
fn for_nobody_else(options: &mut OpenOptions) {
    #[cfg(unix)]
    std::os::unix::fs::OpenOptionsExt::mode(options, 0o600);
    #[cfg(not(unix))]
    let _ = options;
}

/// A file has its new name for good once the directory is on disk too.
fn sync_directory(place: &Path) -> io::Result<()> {
    match place.parent() {
        Some(directory) if cfg!(unix) => File::open(directory)?.sync_all(),
        _ => Ok(()),
    }
}

/// Removes what calls that ended halfway have left over. What cannot be removed hinders nobody.
fn remove_left_over(place: &Path) {
    let Some((directory, name)) = place.parent().zip(place.file_name()) else { return };
    let entries = fs::read_dir(directory).into_iter().flatten().flatten();
    let left_over = entries.filter(|entry| is_left_over(&entry.file_name(), name));
    for path in left_over.map(|entry| entry.path()).collect::<Vec<PathBuf>>() {
        let _ = fs::remove_file(path);
    }
}

/// Whether a file of this name was to take the place of the ledger of that name.
fn is_left_over(file: &OsStr, ledger: &OsStr) -> bool {
    let after = file.as_encoded_bytes().strip_prefix(ledger.as_encoded_bytes());
    let digits = after.and_then(|after| after.strip_prefix(b"."));
    let digits = digits.and_then(|digits| digits.strip_suffix(ENDING.as_bytes()));
    let is_digit = |byte: &u8| matches!(byte, b'0'..=b'9' | b'a'..=b'f');
    digits.is_some_and(|digits| digits.len() == DIGITS && digits.iter().all(is_digit))
}

#[cfg(test)]
mod tests {
    use super::is_left_over;

    #[test]
    fn what_is_left_over() {
        let is = |file: &str| is_left_over(file.as_ref(), "deck.ledger".as_ref());
        assert!(is("deck.ledger.0123456789abcdef.tmp"));
        for file in [
            "deck.ledger",
            "deck.ledger.lock",
            "deck.ledger.tmp",
            "deck.ledger.0123456789abcde.tmp",
            "deck.ledger.0123456789abcdef0.tmp",
            "deck.ledger.0123456789ABCDEF.tmp",
            "deck.ledger.copy.of.ledger.tmp",
            "deck.0123456789abcdef.tmp",
            "a.deck.ledger.0123456789abcdef.tmp",
            "deck.ledger.0123456789abcdef.tmp.txt",
        ] {
            assert!(!is(file), "{file}");
        }
    }
}
