//! A file's bytes, wherever they come from, if they are not too many.

use std::borrow::Cow;
use std::fs::File;
use std::io::{self, Read};
use std::path::PathBuf;

use crate::book;
use crate::fault::Fault;
use crate::table::MOST_ROWS;

/// The largest file that is read, in bytes. A table takes a few thousand.
pub const LARGEST: usize = 1 << 20;

/// Where a file comes from.
#[derive(Debug, Clone, PartialEq, Eq)]
pub enum Source {
    /// From this path.
    Path(PathBuf),
    /// From the standard input.
    Input,
}

impl Source {
    /// What it is called where something is said of it.
    pub fn name(&self) -> Cow<'_, str> {
        match self {
            Source::Path(path) => path.to_string_lossy(),
            Source::Input => "standard input".into(),
        }
    }

    /// The argument that it is given by, before a shell has its way with it. A dash in front would
    /// be taken for an option, or for the standard input.
    pub fn argument(&self) -> String {
        match self {
            Source::Path(path) if path.to_string_lossy().starts_with('-') => {
                format!("./{}", path.to_string_lossy())
            }
            Source::Path(path) => path.to_string_lossy().to_string(),
            Source::Input => "-".to_string(),
        }
    }

    /// Its bytes, with this as the standard input.
    pub fn load(&self, input: &mut dyn Read) -> Result<Vec<u8>, Fault> {
        match self {
            Source::Path(path) => all(File::open(path).map_err(unreadable)?),
            Source::Input => all(input),
        }
    }
}

/// All that can be read here. If it is too much, or has no end, no more of it is read than the byte
/// that shows it to be larger.
fn all(from: impl Read) -> Result<Vec<u8>, Fault> {
    let mut bytes = Vec::new();
    from.take(LARGEST as u64 + 1).read_to_end(&mut bytes).map_err(unreadable)?;
    match bytes.len() {
        0..=LARGEST => Ok(bytes),
        _ => Err(Fault::new(format!(
            "the file is larger than 1 MiB ({LARGEST} bytes); a table of {MOST_ROWS} messages takes \
             a few thousand, and the largest book has {} bytes: is it the right file?",
            book::length(MOST_ROWS)
        ))),
    }
}

fn unreadable(error: io::Error) -> Fault {
    Fault::new(format!("the file cannot be read: {error}"))
}

#[cfg(test)]
mod tests {
    use super::Source;

    #[test]
    fn the_argument_names_the_same_file() {
        let argument = |path: &str| Source::Path(path.into()).argument();
        assert_eq!(argument("a/-b.csv"), "a/-b.csv");
        assert_eq!((argument("-"), argument("-b.csv")), ("./-".into(), "./-b.csv".into()));
        assert_eq!(Source::Input.argument(), "-");
    }
}
