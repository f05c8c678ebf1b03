//! The library's refusals, said of the file and the order as they were written.
//!
//! What is allowed is stated here for people to read; it is the library that goes by it.

use std::collections::BTreeSet;

use telhavina::Refusal;

use crate::fault::{Column, Fault};
use crate::millis::Rounding;
use crate::order::Entry;
use crate::rate::Rate;
use crate::shown::{count, Quoted};
use crate::table::{Length, Message, Table, MOST_ROWS};

const LONGEST_PERIOD: u32 = 1_000_000;
/// How many names or entries of one kind are listed.
const LISTED: usize = 12;

/// This refusal with the line, the column or the entry at fault; without an order that was written,
/// it is that of the file.
pub fn in_words(refusal: Refusal, table: &Table, order: Option<&[Entry]>) -> Fault {
    let fault = match (refusal, order) {
        (Refusal::TooMany, _) => Some(too_many(table)),
        (Refusal::BadRow { row, field }, _) => {
            table.messages.get(row).map(|message| bad_row(message, row, field, table.rate))
        }
        (Refusal::OrderLength, Some(order)) => Some(order_length(table, order)),
        (Refusal::OrderEntry { place }, Some(order)) => order_entry(table, order, place),
        (Refusal::SplitQueue { place }, Some(order)) => split_queue(table, order, place),
        (Refusal::SplitQueue { place }, None) => split_in_file(table, place),
        _ => None,
    };
    // The others do not come from a file that could be read; the library's own words do for them.
    fault.unwrap_or_else(|| Fault::new(refusal.to_string())).refusal(refusal.number())
}

fn too_many(table: &Table) -> Fault {
    let rows = table.messages.len();
    let fault =
        Fault::new(format!("the file has {rows} messages, and at most {MOST_ROWS} are allowed"));
    let line = table.messages.get(MOST_ROWS).and_then(|message| message.line);
    Fault { line, ..fault }
}

fn bad_row(message: &Message, row: usize, field: usize, rate: Option<Rate>) -> Fault {
    let column = column_of(field);
    let (name, value) = (Quoted(&message.name), Quoted(message.written(column)));
    let expected = expected(message, column, rate);
    match message.line {
        Some(line) => {
            Fault::new(format!("{value} is not allowed for {name} (row {row}): {expected}"))
                .on_line(line)
                .in_column(column)
        }
        None => Fault::new(format!("{value} is not allowed: {expected}")).in_row(row, column),
    }
}

/// This field of a message that stands in no file yet is not allowed.
pub(crate) fn bad_field(message: &Message, field: usize, rate: Option<Rate>) -> Fault {
    let column = column_of(field);
    let value = Quoted(message.written(column));
    let expected = expected(message, column, rate);
    Fault::new(format!("{value} is not allowed: {expected}")).in_column(column)
}

/// The column that tells this field of a row.
fn column_of(field: usize) -> Column {
    match field {
        1 => Column::Queue,
        2 | 3 => Column::Length,
        4 => Column::Period,
        5 => Column::Deadline,
        _ => Column::Jitter,
    }
}

/// What is allowed in this column of the message.
fn expected(message: &Message, column: Column, rate: Option<Rate>) -> String {
    match column {
        Column::Name | Column::Queue => "FIFO numbers are 1 to 64".to_string(),
        Column::Length => allowed_length(message.length).to_string(),
        Column::Period => came_to(message.period, rate, &allowed_period(rate)),
        Column::Deadline => came_to(message.deadline, rate, &allowed_deadline(message)),
        Column::Jitter => came_to(message.jitter, rate, &allowed_jitter(message)),
    }
}

fn allowed_length(length: Length) -> &'static str {
    match length {
        Length::Bits(_) => "a length in bit times is 1 to 4096",
        Length::Std(_) | Length::Ext(_) => "a frame has 0 to 8 bytes",
        Length::Other { .. } => Length::FORMS,
    }
}

fn allowed_period(rate: Option<Rate>) -> String {
    let allowed = format!("a period is 1 to {LONGEST_PERIOD} bit times");
    match rate {
        None => allowed,
        Some(rate) => {
            let least = rate.millis(1, Rounding::Up);
            let most = rate.millis(LONGEST_PERIOD, Rounding::Down);
            format!("{allowed}, here {least} to {most} ms")
        }
    }
}

fn allowed_deadline(message: &Message) -> String {
    let (period, written) = (message.period, message.written(Column::Period));
    format!("a deadline is 1 bit time to the period, {}", here(period, written))
}

fn allowed_jitter(message: &Message) -> String {
    let (deadline, written) = (message.deadline, message.written(Column::Deadline));
    format!("a jitter is 0 to the deadline, {}", here(deadline, written))
}

fn here(bit_times: u32, written: &str) -> String {
    format!("here {} ({})", count(bit_times as usize, "bit time"), Quoted(written))
}

/// What is allowed and, where the file has milliseconds, what its value came to.
fn came_to(bit_times: u32, rate: Option<Rate>, allowed: &str) -> String {
    match rate {
        None => allowed.to_string(),
        Some(rate) => {
            let came_to = count(bit_times as usize, "whole bit time");
            format!("it comes to {came_to} at {rate}, and {allowed}")
        }
    }
}

fn order_length(table: &Table, order: &[Entry]) -> Fault {
    let (entries, messages) = (order.len(), count(table.messages.len(), "message"));
    let ending = if entries == 1 { "y" } else { "ies" };
    Fault::new(format!(
        "the ORDER has {entries} entr{ending} for {messages}{}{}{}",
        list("missing", missing(table, order)),
        list("repeated", repeated(order)),
        list("not a row", no_rows(table, order)),
    ))
}

fn written(entry: &Entry) -> &str {
    &entry.written
}

/// The names of the messages that are not in the order.
fn missing<'a>(table: &'a Table, order: &[Entry]) -> impl Iterator<Item = &'a str> {
    let there: BTreeSet<u32> = order.iter().map(|entry| entry.row).collect();
    let rows = table.messages.iter().zip(0..);
    rows.filter(move |(_, row)| !there.contains(row)).map(|(message, _)| message.name.as_str())
}

/// The entries that stand for the row of an earlier one.
fn repeated(order: &[Entry]) -> impl Iterator<Item = &str> {
    let mut seen = BTreeSet::new();
    order.iter().filter(move |entry| !seen.insert(entry.row)).map(written)
}

/// The entries that stand for no row.
fn no_rows<'a>(table: &'a Table, order: &'a [Entry]) -> impl Iterator<Item = &'a str> {
    order.iter().filter(|entry| table.message(entry.row).is_none()).map(written)
}

/// `; what: these`, or nothing where there are none.
fn list<'a>(what: &str, these: impl Iterator<Item = &'a str>) -> String {
    let mut quoted: Vec<String> =
        these.take(LISTED + 1).map(|text| Quoted(text).to_string()).collect();
    if quoted.len() > LISTED {
        quoted.truncate(LISTED);
        quoted.push("...".to_string());
    }
    match quoted.is_empty() {
        true => String::new(),
        false => format!("; {what}: {}", quoted.join(", ")),
    }
}

fn order_entry(table: &Table, order: &[Entry], place: usize) -> Option<Fault> {
    let entry = order.get(place)?;
    let written = Quoted(&entry.written);
    let why = match order.iter().take(place).position(|earlier| earlier.row == entry.row) {
        Some(earlier) => format!(
            "repeats place {earlier}: each message stands in the ORDER once{}",
            list("missing", missing(table, order))
        ),
        None => format!("is no row: rows are 0 to {}", table.messages.len().saturating_sub(1)),
    };
    Some(Fault::new(format!("ORDER entry {written} (place {place}) {why}")))
}

fn split_queue(table: &Table, order: &[Entry], place: usize) -> Option<Fault> {
    let message = |entry: &Entry| table.message(entry.row);
    let entry = order.get(place)?;
    let queue = message(entry)?.queue;
    let same = |entry: &Entry| message(entry).is_some_and(|message| message.queue == queue);
    let last_place = order.iter().take(place).rposition(same)?;
    let last = order.get(last_place)?;
    Some(Fault::new(format!(
        "ORDER entry {} (place {place}) comes back to {queue}, which was left after {} (place \
         {last_place}): keep the messages of a FIFO together",
        Quoted(&entry.written),
        Quoted(&last.written)
    )))
}

/// The same where the order is that of the file: there, a place is a row.
fn split_in_file(table: &Table, row: usize) -> Option<Fault> {
    let message = table.messages.get(row)?;
    let queue = message.queue;
    let last_row = table.messages.iter().take(row).rposition(|earlier| earlier.queue == queue)?;
    let last = table.messages.get(last_row)?;
    // In a CSV, a line can be moved.
    let way_out = match last.line {
        Some(line) => format!(" (line {line}): move it there, or give"),
        None => ": give".to_string(),
    };
    let fault = Fault::new(format!(
        "in the order of the file, {} comes back to {queue}, which was left after {}{way_out} an \
         ORDER that keeps the messages of a FIFO together",
        Quoted(&message.name),
        Quoted(&last.name),
    ));
    match message.line {
        Some(line) => Some(fault.on_line(line).in_column(Column::Queue)),
        None => Some(fault),
    }
}
