//! The answer as a program reads it: one JSON object on one line, its keys always in this order.

use std::fmt::{self, Write};

use telhavina::Refusal;

use crate::answer::{Answer, Judged, Verdict};
use crate::fault::Fault;
use crate::order::Names;
use crate::rate::Rate;
use crate::table::Table;

/// The answer on the table of this file.
pub fn answer(file: &str, table: &Table, answer: &Answer) -> String {
    let rate = table.rate.map(Rate::bits);
    let judged = |verdict| {
        let object = Object::new().text("verdict", verdict).text("file", file);
        object.or_null("bitrate", rate).text("order", &order(table, answer))
    };
    let object = match answer.verdict {
        Verdict::Passed => judged("passed"),
        Verdict::Late { place } => judged("late")
            .put("late_count", answer.late())
            .put("first", first(table, answer, place)),
        Verdict::Found { tried } => judged("found").put("tried", tried),
        Verdict::NoOrder { unplaced, tried } => {
            return Object::new()
                .text("verdict", "no order")
                .put("number", Refusal::NoOrder { unplaced, tried }.number())
                .text("message", "no order of these messages passes")
                .text("file", file)
                .or_null("bitrate", rate)
                .put("unplaced", unplaced)
                .put("tried", tried)
                .line()
        }
    };
    let messages = answer.judged.iter().map(|judged| message(table, judged));
    object.put("messages", Array(messages.collect())).line()
}

/// The order that was judged, as it can be given as ORDER.
pub(crate) fn order(table: &Table, answer: &Answer) -> String {
    Names::of(table).write(answer.judged.iter().map(|judged| judged.row))
}

/// Why there is no answer on this file.
pub fn fault(file: &str, fault: &Fault) -> String {
    let verdict = if fault.number.is_some() { "refused" } else { "unreadable" };
    let object = Object::new().text("verdict", verdict);
    let object = object.known("number", fault.number).text("message", &fault.message);
    let object = object.text("file", file).known("line", fault.line);
    match fault.column {
        Some(column) => object.text("column", column.name()).line(),
        None => object.line(),
    }
}

/// Why the command line could not be followed.
pub fn misused(message: &str) -> String {
    Object::new().text("verdict", "usage").text("message", message).line()
}

/// The message at the first late place.
fn first(table: &Table, answer: &Answer, place: usize) -> String {
    let name = answer.judged.get(place).map_or("", |judged| table.name(judged.row));
    Object::new().text("name", name).put("place", place).end()
}

/// One message, with times in milliseconds too if there is a bit rate.
pub(crate) fn message(table: &Table, judged: &Judged) -> String {
    let message = table.message(judged.row);
    let object = Object::new()
        .text("name", table.name(judged.row))
        .put("row", judged.row)
        .known("line", message.and_then(|message| message.line))
        .text("queue", &message.map(|message| message.queue.to_string()).unwrap_or_default())
        .put("late", judged.figure.is_none())
        .or_null("figure", judged.figure)
        .put("allowed", judged.allowed)
        .or_null("slack", judged.slack());
    let Some(rate) = table.rate else { return object.end() };
    let timed = judged.timed(rate);
    object
        .or_null("figure_ms", timed.figure)
        .put("allowed_ms", timed.allowed)
        .or_null("slack_ms", timed.slack)
        .end()
}

/// An object, as far as it is written.
pub(crate) struct Object(String);

impl Object {
    pub(crate) fn new() -> Object {
        Object(String::new())
    }

    /// With this value, which is written as JSON already, or as a number is.
    pub(crate) fn put(mut self, key: &str, value: impl fmt::Display) -> Object {
        let comma = if self.0.is_empty() { "" } else { "," };
        // To write to a string does not fail.
        let _ = write!(self.0, "{comma}{}:{value}", Quoted(key));
        self
    }

    pub(crate) fn text(self, key: &str, value: &str) -> Object {
        self.put(key, Quoted(value))
    }

    /// With this value, or with null.
    pub(crate) fn or_null(self, key: &str, value: Option<impl fmt::Display>) -> Object {
        match value {
            Some(value) => self.put(key, value),
            None => self.put(key, "null"),
        }
    }

    /// With this value if there is one.
    pub(crate) fn known(self, key: &str, value: Option<impl fmt::Display>) -> Object {
        match value {
            Some(value) => self.put(key, value),
            None => self,
        }
    }

    fn end(self) -> String {
        format!("{{{}}}", self.0)
    }

    pub(crate) fn line(self) -> String {
        format!("{{{}}}\n", self.0)
    }
}

/// Values that are written already.
pub(crate) struct Array(pub(crate) Vec<String>);

impl fmt::Display for Array {
    fn fmt(&self, f: &mut fmt::Formatter) -> fmt::Result {
        write!(f, "[{}]", self.0.join(","))
    }
}

/// A text as JSON has it. Letters of any language stand as they are; what cannot be seen does not.
struct Quoted<'a>(&'a str);

impl fmt::Display for Quoted<'_> {
    fn fmt(&self, f: &mut fmt::Formatter) -> fmt::Result {
        write!(f, "\"")?;
        self.0.chars().try_for_each(|c| match c {
            '"' | '\\' => write!(f, "\\{c}"),
            '\n' => write!(f, "\\n"),
            '\r' => write!(f, "\\r"),
            '\t' => write!(f, "\\t"),
            // Of these, all are below 2^16 and need no pair.
            _ if c.is_control() || matches!(c, '\u{2028}' | '\u{2029}') => {
                write!(f, "\\u{:04x}", u32::from(c))
            }
            _ => write!(f, "{c}"),
        })?;
        write!(f, "\"")
    }
}

#[cfg(test)]
mod tests {
    use super::{answer, Object, Quoted};
    use crate::answer::judge;
    use crate::table::read;

    // As in the report: 20 bit times are 0.60000600006 ms, 100 are 3.00003 ms, and 80 are 2.40002.
    #[test]
    fn milliseconds_do_not_flatter() {
        let text = "# bitrate 33333\nname,queue,length,period,deadline,jitter\n\
                    A,priority,bits 10,100,3.0004,0\n";
        let table = read(text.as_bytes()).expect("a table");
        let shown = answer("a.csv", &table, &judge(&table, None).expect("an answer"));
        let times = "\"figure_ms\":0.601,\"allowed_ms\":3.000,\"slack_ms\":2.400}]}\n";
        assert!(shown.ends_with(times), "{shown}");
    }

    #[test]
    fn texts() {
        let text = "ø 網 🐟 \"a\" \\ / \n\r\t\0\u{1b}\u{7f}\u{85}\u{2028}";
        assert_eq!(
            Quoted(text).to_string(),
            "\"ø 網 🐟 \\\"a\\\" \\\\ / \\n\\r\\t\\u0000\\u001b\\u007f\\u0085\\u2028\""
        );
    }

    #[test]
    fn objects() {
        let object = Object::new().text("a", "b").put("c", 1).or_null("d", None::<u32>);
        assert_eq!(object.known("e", None::<u32>).end(), "{\"a\":\"b\",\"c\":1,\"d\":null}");
        assert_eq!(Object::new().line(), "{}\n");
    }
}
