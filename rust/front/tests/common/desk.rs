//! A ledger in a directory of its own, what is done with it, and the bytes that it should have:
//! made without the front.

use std::fs;
use std::path::{Path, PathBuf};
use std::process::Command;

use super::books::book;
use super::json::{self, Json};
use super::{command, said, Said};

/// A message of 100 bit times that may take 350. Alone it is sent within 200, below one like it
/// within 300, and below two within 400: there is room for two of them.
pub const CELLS: [&str; 5] = ["priority", "bits 100", "1000", "350", "0"];
/// The same in words.
pub const WORDS: [u32; 6] = [0, 0, 100, 1000, 350, 0];
/// A message of which 64 have room.
pub const SMALL: [&str; 5] = ["priority", "std 0", "1000000", "1000000", "0"];
/// The same in words.
pub const SMALL_WORDS: [u32; 6] = [0, 1, 0, 1_000_000, 1_000_000, 0];

/// A ledger, or a place for one.
pub struct Desk {
    pub path: PathBuf,
}

/// What a ledger tells.
#[derive(Clone, Default)]
pub struct Ledger {
    pub edition: u32,
    pub rate: Option<u32>,
    pub names: Vec<String>,
    pub words: Vec<u32>,
}

impl Ledger {
    /// With these messages of these words.
    pub fn of(edition: u32, names: &[&str], words: [u32; 6]) -> Ledger {
        let names: Vec<String> = names.iter().map(ToString::to_string).collect();
        let words = words.repeat(names.len());
        Ledger { edition, rate: None, names, words }
    }

    /// The bytes of its file.
    pub fn bytes(&self) -> Vec<u8> {
        let rate = self.rate.map(|rate| format!("bitrate {rate}\n")).unwrap_or_default();
        let names: String = self.names.iter().map(|name| format!("{name}\n")).collect();
        let (edition, messages) = (self.edition, self.names.len());
        let head =
            format!("telhavina ledger 1\nedition {edition}\n{rate}messages {messages}\n{names}");
        let rows = if self.words.is_empty() { Vec::new() } else { book(&self.words) };
        summed([head.into_bytes(), rows].concat())
    }
}

/// These bytes with their CRC-32 behind them.
pub fn summed(mut bytes: Vec<u8>) -> Vec<u8> {
    let mut rest = u32::MAX;
    for byte in &bytes {
        for bit in 0..8 {
            let is_odd = (rest ^ u32::from(byte >> bit)) & 1 == 1;
            rest = (rest >> 1) ^ if is_odd { 0xEDB8_8320 } else { 0 };
        }
    }
    bytes.extend((!rest).to_be_bytes());
    bytes
}

/// A link in the ledger's place goes when the test ends: the gate refuses links anywhere in the project.
impl Drop for Desk {
    fn drop(&mut self) {
        if fs::symlink_metadata(&self.path).is_ok_and(|found| found.is_symlink()) {
            let _ = fs::remove_file(&self.path);
        }
    }
}

impl Desk {
    /// A directory of this name with nothing in it.
    pub fn nothing(name: &str) -> Desk {
        let directory = Path::new(env!("CARGO_TARGET_TMPDIR")).join("desk").join(name);
        let _ = fs::remove_dir_all(&directory);
        fs::create_dir_all(&directory).expect("a directory for the test");
        Desk { path: directory.join("deck.ledger") }
    }

    /// The same with a ledger in it.
    pub fn with(name: &str, ledger: &Ledger) -> Desk {
        let desk = Desk::nothing(name);
        desk.put(&ledger.bytes());
        desk
    }

    /// Puts these bytes in the place of the ledger.
    pub fn put(&self, bytes: &[u8]) {
        fs::write(&self.path, bytes).expect("a file for the test");
    }

    pub fn bytes(&self) -> Vec<u8> {
        fs::read(&self.path).expect("the ledger")
    }

    pub fn name(&self) -> &str {
        self.path.to_str().expect("a UTF-8 path")
    }

    /// The names of all files in its directory, in their order.
    pub fn files(&self) -> Vec<String> {
        let directory = self.path.parent().expect("a directory");
        let entries = fs::read_dir(directory).expect("a directory").flatten();
        let mut names: Vec<String> =
            entries.map(|entry| entry.file_name().to_string_lossy().to_string()).collect();
        names.sort();
        names
    }

    /// The program, asked to do this with the ledger.
    pub fn command(&self, args: &[&str]) -> Command {
        let mut command = command();
        command.arg("desk").arg(&self.path).args(args);
        command
    }

    pub fn run(&self, args: &[&str]) -> Said {
        said(self.command(args).output().expect("the program runs"))
    }

    /// The same as a program asks it: the object, and the exit status.
    #[track_caller]
    pub fn json(&self, args: &[&str]) -> (Json, Option<i32>) {
        let said = said(self.command(args).arg("--json").output().expect("the program runs"));
        assert_eq!(said.err, "", "{args:?}");
        (json::read(&said.out), said.status)
    }

    /// The edition that is shown.
    #[track_caller]
    pub fn edition(&self) -> u32 {
        let (object, status) = self.json(&["show"]);
        assert_eq!((object.get("verdict").text(), status), ("shown", Some(0)), "{object:?}");
        object.get("edition").whole().expect("an edition")
    }
}

/// The arguments of a claim.
pub fn claim<'a>(name: &'a str, cells: [&'a str; 5], edition: &'a str) -> Vec<&'a str> {
    let mut args = vec!["claim", name];
    args.extend(cells);
    args.extend(["--edition", edition]);
    args
}

/// What was asked is done: one line that starts with the ledger, its edition and this.
#[track_caller]
pub fn done(desk: &Desk, args: &[&str], edition: u32, start: &str) {
    let said = desk.run(args);
    assert_eq!((said.err.as_str(), said.status), ("", Some(0)), "{args:?}");
    let start = format!("{}, edition {edition}: {start}", desk.name());
    assert!(said.out.starts_with(&start) && said.out.lines().count() == 1, "{said:?}");
}

/// What was asked is refused with this number and these parts in the words, in text and in JSON,
/// and the ledger is as it was.
#[track_caller]
pub fn refused(
    desk: &Desk,
    args: &[&str],
    number: Option<u32>,
    edition: u32,
    parts: &[&str],
) -> Json {
    let before = desk.bytes();
    let said = desk.run(args);
    assert_eq!((said.out.as_str(), said.status), ("", Some(2)), "{args:?}");
    assert!(said.err.starts_with(&format!("{}, edition {edition}", desk.name())), "{said:?}");
    assert!(said.err.lines().count() == 1 && said.err.len() < 700, "{said:?}");
    for part in parts {
        assert!(said.err.contains(part), "{part} in {said:?}");
    }
    if let Some(number) = number {
        assert!(said.err.contains(&format!(": refusal {number}: ")), "{said:?}");
    }
    let (object, status) = desk.json(args);
    let verdict = if number.is_some() { "refused" } else { "unreadable" };
    assert_eq!((object.get("verdict").text(), status), (verdict, Some(2)), "{args:?}");
    assert_eq!(object.find("number").and_then(Json::whole), number, "{args:?}");
    assert_eq!(object.get("file").text(), desk.name());
    assert_eq!(object.get("edition").whole(), Some(edition));
    assert!(said.err.ends_with(&format!("{}\n", object.get("message").text())), "{said:?}");
    assert_eq!(desk.bytes(), before, "{args:?}");
    object
}

/// There is no room, and the ledger is as it was.
#[track_caller]
pub fn no_room(desk: &Desk, args: &[&str], edition: u32, unplaced: u32, tried: u32) {
    let before = desk.bytes();
    let said = desk.run(args);
    assert_eq!((said.err.as_str(), said.status), ("", Some(1)), "{args:?}");
    let start =
        format!("{}, edition {edition}: no room: no order passes with `{}` ", desk.name(), args[1]);
    assert!(said.out.starts_with(&start), "{said:?}");
    let bands = if unplaced == 1 { "band" } else { "bands" };
    let end = format!("added ({unplaced} {bands} cannot be placed, {tried} tried)\n");
    assert!(said.out.ends_with(&end), "{said:?}");
    let (object, status) = desk.json(args);
    assert_eq!((object.get("verdict").text(), status), ("no order", Some(1)));
    let numbers = ["number", "edition", "unplaced", "tried"].map(|key| object.get(key).whole());
    assert_eq!(numbers, [Some(8), Some(edition), Some(unplaced), Some(tried)]);
    assert_eq!(desk.bytes(), before, "{args:?}");
}
