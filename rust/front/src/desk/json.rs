//! What the desk says, as a program reads it: one JSON object on one line.

use telhavina::Refusal;

use super::{Outcome, Reply, TurnedDown};
use crate::answer::Answer;
use crate::json::{message, order, Array, Object};
use crate::load::Source;
use crate::rate::Rate;

/// What came of it.
pub fn reply(file: &Source, reply: &Reply) -> String {
    let ledger = |object: Object| {
        object.text("file", &file.name()).put("edition", reply.held.ledger.edition)
    };
    let verdict = |verdict| ledger(Object::new().text("verdict", verdict));
    let rate = reply.held.rate.map(Rate::bits);
    let no_order = |message, unplaced: usize, tried: usize| {
        let object = Object::new().text("verdict", "no order");
        let number = Refusal::NoOrder { unplaced, tried }.number();
        let object = ledger(object.put("number", number).text("message", message));
        object.or_null("bitrate", rate).put("unplaced", unplaced).put("tried", tried)
    };
    let object = match &reply.outcome {
        Outcome::Made => verdict("made").or_null("bitrate", rate),
        Outcome::Granted { name, row } => verdict("granted").text("name", name).put("row", row),
        Outcome::Withdrawn { name, row } => verdict("withdrawn").text("name", name).put("row", row),
        Outcome::NoRoom { unplaced, tried, .. } => {
            no_order("no room: no order passes with this message added", *unplaced, *tried)
        }
        Outcome::Shown(answer) => match answer.as_ref().and_then(Answer::no_order) {
            Some((unplaced, tried)) => {
                no_order("no order of the messages that are held passes", unplaced, tried)
            }
            None => shown(verdict("shown").or_null("bitrate", rate), reply, answer.as_ref()),
        },
    };
    object.line()
}

/// The object with the order that was found, and the messages in that order.
fn shown(object: Object, reply: &Reply, answer: Option<&Answer>) -> Object {
    let Some(answer) = answer else {
        return object.text("order", "").put("tried", 0).put("messages", "[]");
    };
    let table = &reply.held.table();
    let messages = answer.judged.iter().map(|judged| message(table, judged));
    object
        .text("order", &order(table, answer))
        .put("tried", answer.tried())
        .put("messages", Array(messages.collect()))
}

/// Why nothing came of it.
pub fn turned_down(file: &Source, down: &TurnedDown) -> String {
    let fault = &down.fault;
    let verdict = if fault.number.is_some() { "refused" } else { "unreadable" };
    let object = Object::new().text("verdict", verdict).known("number", fault.number);
    let object = object.text("message", &fault.message).text("file", &file.name());
    let object = object.known("edition", down.edition).known("line", fault.line);
    match fault.column {
        Some(column) => object.text("column", column.name()).line(),
        None => object.line(),
    }
}
