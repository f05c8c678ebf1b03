//! The library's refusals at the desk, said of the ledger and of what was asked.

use telhavina::Refusal;

use super::file::Held;
use crate::answer;
use crate::fault::Fault;
use crate::order::Names;
use crate::shown::{Quoted, Shown};
use crate::table::MOST_ROWS;

/// This refusal of what was sent with this edition to the ledger that is typed so.
pub fn in_words(refusal: Refusal, held: &Held, edition: u32, typed: &str) -> Fault {
    let its = held.ledger.edition;
    let words = match refusal {
        Refusal::TooMany => format!(
            "the ledger holds {MOST_ROWS} messages, and no more are allowed: withdraw one first"
        ),
        Refusal::Closed => {
            format!("the ledger is closed: {its} is the last edition there is; make a new ledger")
        }
        Refusal::OtherEdition => format!(
            "edition {edition} was sent, and the ledger has edition {its}: look at what it holds \
             (telhavina desk {} show), and send the edition that you see there",
            Shown(typed)
        ),
        Refusal::BadLedger => bad_ledger(held),
        // No other comes from what the desk sends; the library's own words do for it.
        _ => refusal.to_string(),
    };
    Fault::new(words).refusal(refusal.number())
}

/// Refusal 11, of what stands for no row among these names.
pub fn no_such_row(held: &Held, names: &Names, written: &str) -> Fault {
    let hint = match held.names.is_empty() {
        true => "there is none".to_string(),
        false => names.hint(written),
    };
    Fault::new(format!(
        "{} is neither the name nor the row number of a message that is held; {hint}",
        Quoted(written)
    ))
    .refusal(Refusal::NoSuchRow.number())
}

/// What is wrong with a ledger is what would be wrong with its table.
fn bad_ledger(held: &Held) -> String {
    let said = "the ledger holds what is not allowed, and nothing is granted or withdrawn in it";
    match answer::find(&held.table()) {
        Err(fault) => format!("{said}: {}", fault.message),
        Ok(_) => said.to_string(),
    }
}
