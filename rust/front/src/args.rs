//! The command line: what is asked for, and of which file.

use std::ffi::OsString;
use std::path::PathBuf;

use crate::alike::{but_for_a_slip, but_for_case, did_you_mean};
use crate::desk::args::{self as desk_args, Valued, BITRATE, EDITION};
use crate::desk::Task;
use crate::load::Source;
use crate::shown::Quoted;

/// The names of the commands.
const COMMANDS: [&str; 6] = ["judge", "find", "pack", "unpack", "desk", "help"];

/// What is asked for.
#[derive(Debug, Clone, PartialEq, Eq)]
pub enum Command {
    /// The explanation.
    Help,
    /// Judge an order of the table in this file.
    Judge {
        /// The file.
        file: Source,
        /// The order as it was written; if there is none, that of the file.
        order: Option<String>,
    },
    /// Find an order for the table in this file.
    Find {
        /// The file.
        file: Source,
    },
    /// Make a book of the CSV in this file.
    Pack {
        /// The file.
        file: Source,
    },
    /// Make a CSV of the book in this file.
    Unpack {
        /// The file.
        file: Source,
    },
    /// Go to the desk.
    Desk {
        /// The file of the ledger.
        ledger: PathBuf,
        /// What to do with it.
        task: Task,
    },
}

/// A command, and how its answer is wanted.
#[derive(Debug, Clone, PartialEq, Eq)]
pub struct Request {
    /// What is asked for.
    pub command: Command,
    /// Whether the answer is for a program.
    pub json: bool,
}

/// Why a command line cannot be followed.
#[derive(Debug, Clone, PartialEq, Eq)]
pub struct Usage {
    /// What is wrong with it.
    pub message: String,
    /// Whether the answer was to be for a program.
    pub json: bool,
}

/// Reads the arguments that follow the name of the program.
pub fn read(args: Vec<OsString>) -> Result<Request, Usage> {
    let words = sort(args);
    // Where a file is made, an object would end up in it.
    let json = words.json && made_by(&words.name()).is_none();
    match command(words) {
        Ok(command) => Ok(Request { command, json }),
        Err(message) => Err(Usage { message, json }),
    }
}

/// The kind of file that the command of this name makes, if it makes one.
fn made_by(name: &str) -> Option<&'static str> {
    match name {
        "pack" => Some("a book"),
        "unpack" => Some("a CSV"),
        _ => None,
    }
}

/// The arguments by what they are.
#[derive(Default)]
struct Words {
    json: bool,
    help: bool,
    unknown: Option<String>,
    valued: Vec<Valued>,
    plain: Vec<Plain>,
}

/// An argument that is no option.
enum Plain {
    /// A dash: in the place of a file, the standard input.
    Dash,
    /// Any other, or a dash that is meant as it stands.
    Text(OsString),
}

impl Plain {
    fn text(self) -> OsString {
        match self {
            Plain::Dash => "-".into(),
            Plain::Text(text) => text,
        }
    }
}

impl Words {
    /// The name of the command, empty if there is none.
    fn name(&self) -> String {
        match self.plain.first() {
            Some(Plain::Text(name)) => name.to_string_lossy().to_string(),
            Some(Plain::Dash) => "-".to_string(),
            None => String::new(),
        }
    }
}

/// After `--`, nothing is an option, and a dash is a dash.
fn sort(args: Vec<OsString>) -> Words {
    let mut words = Words::default();
    let mut options = true;
    let mut args = args.into_iter().peekable();
    let is_value = |arg: &OsString| !arg.to_string_lossy().starts_with('-');
    while let Some(arg) = args.next() {
        match arg.to_str() {
            Some("--") if options => options = false,
            Some("--json") if options => words.json = true,
            Some("--help" | "-h") if options => words.help = true,
            Some(EDITION) if options => words.valued.push((EDITION, args.next_if(is_value))),
            Some(BITRATE) if options => words.valued.push((BITRATE, args.next_if(is_value))),
            Some("-") if options => words.plain.push(Plain::Dash),
            Some(option) if options && option.starts_with('-') => {
                words.unknown.get_or_insert(option.to_string());
            }
            _ => words.plain.push(Plain::Text(arg)),
        }
    }
    words
}

fn command(words: Words) -> Result<Command, String> {
    let name = words.name();
    if words.help || name == "help" {
        return Ok(Command::Help);
    }
    if let Some(kind) = made_by(&name).filter(|_| words.json) {
        return Err(format!("{name} takes no --json: its answer is {kind}"));
    }
    let desks = words.valued.first().filter(|_| name != "desk").map(|(option, _)| option);
    if let Some(option) = words.unknown.or(desks.map(ToString::to_string)) {
        let hint = "an ORDER, a name or a file that starts with - comes after --";
        return Err(format!("there is no option {} ({hint})", Quoted(&option)));
    }
    let has_name = !words.plain.is_empty();
    let after = words.plain.into_iter().skip(1);
    match name.as_str() {
        "judge" => judge(after),
        "find" => find(after),
        "pack" => pack(after),
        "unpack" => unpack(after),
        "desk" => desk(after, &words.valued),
        other if has_name => Err(unknown(other)),
        _ => Err("a command is missing: judge, find, pack, unpack, desk or --help".to_string()),
    }
}

fn unknown(name: &str) -> String {
    let said = format!("there is no command {}", Quoted(name));
    let names = || COMMANDS.into_iter();
    match but_for_case(name, names()).or_else(|| but_for_a_slip(name, names())) {
        Some(meant) => format!("{said}; {}", did_you_mean(meant)),
        None => said,
    }
}

fn judge(mut after: impl Iterator<Item = Plain>) -> Result<Command, String> {
    let file = file(after.next(), "judge TABLE.csv")?;
    let order = match after.next().map(|order| order.text().into_string()) {
        None => None,
        Some(Ok(order)) => Some(order),
        Some(Err(_)) => return Err("the ORDER is not UTF-8".to_string()),
    };
    match after.next() {
        None => Ok(Command::Judge { file, order }),
        Some(more) => Err(format!(
            "judge takes one file and one ORDER, and {} is one argument too many (an ORDER with \
             blanks in it stands in quotes)",
            Quoted(&more.text().to_string_lossy())
        )),
    }
}

fn find(mut after: impl Iterator<Item = Plain>) -> Result<Command, String> {
    let file = file(after.next(), "find TABLE.csv")?;
    no_more(after, "find")?;
    Ok(Command::Find { file })
}

fn pack(mut after: impl Iterator<Item = Plain>) -> Result<Command, String> {
    let file = file(after.next(), "pack TABLE.csv > BOOK")?;
    no_more(after, "pack")?;
    Ok(Command::Pack { file })
}

/// Without a file, it is the standard input that is unpacked.
fn unpack(mut after: impl Iterator<Item = Plain>) -> Result<Command, String> {
    let file = file(after.next().or(Some(Plain::Dash)), "unpack BOOK > TABLE.csv")?;
    no_more(after, "unpack")?;
    Ok(Command::Unpack { file })
}

fn desk(after: impl Iterator<Item = Plain>, options: &[Valued]) -> Result<Command, String> {
    let mut after = after.peekable();
    if let Some(Plain::Dash) = after.peek() {
        return Err("a ledger is a file, and cannot come from standard input".to_string());
    }
    let (ledger, task) = desk_args::read(after.map(Plain::text).collect(), options)?;
    Ok(Command::Desk { ledger, task })
}

fn file(arg: Option<Plain>, expected: &str) -> Result<Source, String> {
    match arg {
        Some(Plain::Dash) => Ok(Source::Input),
        Some(Plain::Text(file)) if !file.is_empty() => Ok(Source::Path(PathBuf::from(file))),
        _ => Err(format!("the file is missing: telhavina {expected}")),
    }
}

fn no_more(mut after: impl Iterator<Item = Plain>, command: &str) -> Result<(), String> {
    match after.next() {
        None => Ok(()),
        Some(more) => Err(format!(
            "{command} takes one file and nothing else, and {} is one argument too many",
            Quoted(&more.text().to_string_lossy())
        )),
    }
}
