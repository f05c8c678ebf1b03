//! The command line of the desk: which ledger, and what to do with it.

use std::ffi::OsString;
use std::path::PathBuf;

use super::Task;
use crate::alike::{but_for_a_slip, but_for_case, did_you_mean};
use crate::cells::whole;
use crate::fault::Column;
use crate::rate::Rate;
use crate::shown::Quoted;

/// What can be done with a ledger.
const TASKS: [&str; 4] = ["new", "claim", "withdraw", "show"];
/// How a claim is written.
const CLAIM: &str = "claim NAME QUEUE LENGTH PERIOD DEADLINE JITTER --edition N";
const WITHDRAW: &str = "withdraw NAME --edition N";

/// The options that are followed by a number.
pub(crate) const EDITION: &str = "--edition";
pub(crate) const BITRATE: &str = "--bitrate";

/// An option that is followed by a number, and what follows it.
pub(crate) type Valued = (&'static str, Option<OsString>);

/// The ledger and the task in these arguments, which come after the name of the command.
pub(crate) fn read(words: Vec<OsString>, options: &[Valued]) -> Result<(PathBuf, Task), String> {
    let mut words = words.into_iter();
    let ledger = words.next().filter(|ledger| !ledger.is_empty());
    let ledger = ledger.ok_or("the file is missing: telhavina desk LEDGER show")?;
    let task = words.next().map(|task| task.to_string_lossy().to_string());
    let texts = words.map(text).collect::<Result<Vec<String>, String>>();
    let task = match task.as_deref() {
        Some("new") => {
            takes("new", options, &[BITRATE])?;
            nothing_more("new", &texts?)?;
            Task::New { rate: rate(options)? }
        }
        Some("claim") => {
            takes("claim", options, &[EDITION])?;
            Task::Claim { cells: cells(texts?)?, edition: edition("claim", options)? }
        }
        Some("withdraw") => {
            takes("withdraw", options, &[EDITION])?;
            Task::Withdraw { name: name(texts?)?, edition: edition("withdraw", options)? }
        }
        Some("show") => {
            takes("show", options, &[])?;
            nothing_more("show", &texts?)?;
            Task::Show
        }
        Some(other) => return Err(unknown(other, &ledger.to_string_lossy())),
        None => {
            let missing = "what to do with the ledger is missing: new, claim, withdraw or show";
            return Err(missing.to_string());
        }
    };
    Ok((PathBuf::from(ledger), task))
}

fn text(word: OsString) -> Result<String, String> {
    word.into_string().map_err(|word| format!("{} is not UTF-8", Quoted(&word.to_string_lossy())))
}

fn unknown(task: &str, ledger: &str) -> String {
    let said = format!("nothing called {} is done with a ledger", Quoted(task));
    let names = || TASKS.into_iter();
    match but_for_case(task, names()).or_else(|| but_for_a_slip(task, names())) {
        Some(meant) => format!("{said}; {}", did_you_mean(meant)),
        None if TASKS.contains(&ledger) => {
            format!("{said}: the ledger comes first (telhavina desk LEDGER {ledger})")
        }
        None => format!("{said}: new, claim, withdraw and show are"),
    }
}

/// Only these options come with the task, and none of them twice.
fn takes(task: &str, options: &[Valued], taken: &[&str]) -> Result<(), String> {
    for (place, (option, _)) in options.iter().enumerate() {
        if !taken.contains(option) {
            return Err(format!("{task} takes no {option}"));
        }
        if options.iter().take(place).any(|(earlier, _)| earlier == option) {
            return Err(format!("{option} is there twice"));
        }
    }
    Ok(())
}

/// The number after this option, if the option is there.
fn number(options: &[Valued], wanted: &str) -> Result<Option<u32>, String> {
    let Some((_, value)) = options.iter().find(|(option, _)| *option == wanted) else {
        return Ok(None);
    };
    let Some(value) = value else { return Err(format!("{wanted} is not followed by a number")) };
    let value = value.to_string_lossy();
    whole(&value).map(Some).map_err(|why| format!("{wanted}: {} {why}", Quoted(&value)))
}

/// Without the edition, two officers could both be granted what each of them saw to be free.
fn edition(task: &str, options: &[Valued]) -> Result<u32, String> {
    number(options, EDITION)?.ok_or_else(|| {
        format!(
            "{task} needs {EDITION} N, the edition of the ledger that you saw (telhavina desk \
             LEDGER show tells it)"
        )
    })
}

fn rate(options: &[Valued]) -> Result<Option<Rate>, String> {
    let Some(bits) = number(options, BITRATE)? else { return Ok(None) };
    let none = || format!("{BITRATE}: a bit rate is 1 to {} bits per second", u32::MAX);
    Rate::new(bits).map(Some).ok_or_else(none)
}

fn cells(texts: Vec<String>) -> Result<[String; 6], String> {
    <[String; 6]>::try_from(texts).map_err(|texts| {
        let all = Column::ALL.len();
        let hint = "one with a blank in it stands in quotes, as 'std 8'";
        format!("claim takes {all} cells, and there are {} ({hint}): {CLAIM}", texts.len())
    })
}

fn name(texts: Vec<String>) -> Result<String, String> {
    <[String; 1]>::try_from(texts).map(|[name]| name).map_err(|texts| {
        let hint = "one with a blank in it stands in quotes";
        format!("withdraw takes one name, and there are {} ({hint}): {WITHDRAW}", texts.len())
    })
}

fn nothing_more(task: &str, texts: &[String]) -> Result<(), String> {
    match texts {
        [] => Ok(()),
        [more, ..] => Err(format!(
            "{task} takes a ledger and nothing else, and {} is one argument too many",
            Quoted(more)
        )),
    }
}
