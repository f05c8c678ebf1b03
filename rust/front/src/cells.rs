//! What stands in one cell of the file: a queue, a length, a number, a time.

use crate::fault::{Column, Fault};
use crate::millis::{Millis, Rounding, DECIMALS};
use crate::rate::Rate;
use crate::shown::Quoted;

/// Where a message waits to be sent.
#[derive(Debug, Clone, Copy, PartialEq, Eq)]
pub enum Queue {
    /// In a queue of its own, by its priority.
    Priority,
    /// In the FIFO of this number.
    Fifo(u32),
}

/// How long a message is.
#[derive(Debug, Clone, Copy, PartialEq, Eq)]
pub enum Length {
    /// So many bit times.
    Bits(u32),
    /// So many bytes, with an 11-bit identifier.
    Std(u32),
    /// So many bytes, with a 29-bit identifier.
    Ext(u32),
    /// What only a book can hold: no cell tells such a form, and the library refuses it.
    Other {
        /// The form.
        form: u32,
        /// The size.
        size: u32,
    },
}

/// The queue that this cell tells.
pub fn queue(cell: &str) -> Result<Queue, Fault> {
    let expected = "expected `priority`, or `fifo N` with N from 1 to 64";
    let queue = match words(cell) {
        (kind, None) if kind == "priority" => Ok(Queue::Priority),
        (kind, Some(number)) if kind == "fifo" => whole(number).map(Queue::Fifo),
        _ => Err("is no queue".to_string()),
    };
    match queue {
        // For the library, queue 0 is the priority queue: nobody who writes a FIFO means that.
        Ok(Queue::Fifo(0)) => {
            let numbers = "FIFO numbers are 1 to 64, and a message in no FIFO has `priority`";
            Err(wrong(cell, "is not allowed", numbers))
        }
        queue => queue.map_err(|why| wrong(cell, &why, expected)),
    }
    .map_err(|fault| fault.in_column(Column::Queue))
}

/// The length that this cell tells.
pub fn length(cell: &str) -> Result<Length, Fault> {
    let expected = "expected `std N` or `ext N` with N bytes from 0 to 8, or `bits N` with N bit \
                    times from 1 to 4096";
    let (kind, number) = words(cell);
    let length = match (kind.as_str(), number.map(whole)) {
        ("bits", Some(number)) => number.map(Length::Bits),
        ("std", Some(number)) => number.map(Length::Std),
        ("ext", Some(number)) => number.map(Length::Ext),
        _ => Err("is no length".to_string()),
    };
    length.map_err(|why| wrong(cell, &why, expected).in_column(Column::Length))
}

/// The bit times that this cell comes to, rounded so that it flatters nobody.
pub fn time(cell: &str, rate: Option<Rate>, column: Column) -> Result<u32, Fault> {
    let expected = match rate {
        Some(_) => format!("expected milliseconds, as 2.5, with at most {DECIMALS} decimals"),
        None => {
            "expected whole bit times (milliseconds need a bit rate: a first line `# bitrate N` \
                 or, for a ledger, `new --bitrate N`)"
                .into()
        }
    };
    let rounding = if column == Column::Jitter { Rounding::Up } else { Rounding::Down };
    let time = match rate {
        None => whole(cell),
        Some(rate) => Millis::of_text(cell).and_then(|time| {
            let too_long = || format!("is too long: at {rate} it does not fit 32 bits");
            rate.bit_times(time, rounding).ok_or_else(too_long)
        }),
    };
    time.map_err(|why| wrong(cell, &why, &expected).in_column(column))
}

/// The number that these digits tell, or why they tell none.
pub fn whole(text: &str) -> Result<u32, String> {
    if text.is_empty() {
        return Err("has no digits where a number should be".to_string());
    }
    if text.starts_with(['+', '-']) {
        return Err("has a sign".to_string());
    }
    if !text.chars().all(|c| c.is_ascii_digit()) {
        return Err("is no whole number".to_string());
    }
    text.parse().map_err(|_| format!("does not fit 32 bits (at most {})", u32::MAX))
}

/// The first word in small letters, and what follows it.
fn words(cell: &str) -> (String, Option<&str>) {
    match cell.split_once(' ') {
        Some((kind, rest)) => (kind.to_ascii_lowercase(), Some(rest.trim_start_matches(' '))),
        None => (cell.to_ascii_lowercase(), None),
    }
}

fn wrong(cell: &str, why: &str, expected: &str) -> Fault {
    match cell {
        "" => Fault::new(format!("the cell is empty: {expected}")),
        _ => Fault::new(format!("{} {why}: {expected}", Quoted(cell))),
    }
}

#[cfg(test)]
mod tests {
    use super::{length, queue, time, whole, Length, Queue};
    use crate::fault::Column;
    use crate::rate::Rate;

    #[test]
    fn queues() {
        assert_eq!(queue("priority"), Ok(Queue::Priority));
        assert_eq!(queue("Priority"), Ok(Queue::Priority));
        assert_eq!(queue("fifo 1"), Ok(Queue::Fifo(1)));
        assert_eq!(queue("FIFO   64"), Ok(Queue::Fifo(64)));
        // What is more than 64 is for the library to refuse.
        assert_eq!(queue("fifo 65"), Ok(Queue::Fifo(65)));
        assert_eq!(queue("fifo 4294967295"), Ok(Queue::Fifo(u32::MAX)));
        for cell in ["", "fifo", "fifo1", "fifo 0", "fifo 00", "fifo -1", "fifo +1", "fifo 1 2"] {
            let fault = queue(cell).expect_err(cell);
            assert_eq!(fault.column, Some(Column::Queue));
            assert!(fault.message.contains("1 to 64"), "{fault}");
        }
        for cell in ["priority 1", "prio", "0", "fifo x", "fifo 1.0", "fifo 4294967296"] {
            assert!(queue(cell).is_err(), "{cell}");
        }
    }

    #[test]
    fn lengths() {
        assert_eq!(length("bits 4096"), Ok(Length::Bits(4096)));
        assert_eq!(length("std 0"), Ok(Length::Std(0)));
        assert_eq!(length("Ext  8"), Ok(Length::Ext(8)));
        // What is too long or none at all is for the library to refuse.
        assert_eq!(length("bits 0"), Ok(Length::Bits(0)));
        assert_eq!(length("std 9"), Ok(Length::Std(9)));
        for cell in ["", "8", "std", "std8", "std x", "std -1", "bits 1.5", "bits 4294967296"] {
            assert_eq!(length(cell).map_err(|fault| fault.column), Err(Some(Column::Length)));
        }
    }

    #[test]
    fn numbers() {
        assert_eq!(whole("0"), Ok(0));
        assert_eq!(whole("00000000000000000012"), Ok(12));
        assert_eq!(whole("4294967295"), Ok(u32::MAX));
        for text in ["", "4294967296", "-0", "+1", "1 2", "1_000", "0x10", "1.", "²", "٣"] {
            assert!(whole(text).is_err(), "{text}");
        }
    }

    // Period and deadline go down, jitter goes up.
    #[test]
    fn rounding_by_column() {
        let rate = Rate::new(250_000);
        assert_eq!(time("0.0059", rate, Column::Period), Ok(1));
        assert_eq!(time("0.0059", rate, Column::Deadline), Ok(1));
        assert_eq!(time("0.0059", rate, Column::Jitter), Ok(2));
        assert_eq!(time("0.004", rate, Column::Jitter), Ok(1));
    }

    #[test]
    fn milliseconds_need_a_rate() {
        let fault = time("2.5", None, Column::Period).expect_err("no rate");
        assert!(fault.message.contains("# bitrate"), "{fault}");
        assert_eq!(time("2", None, Column::Period), Ok(2));
    }
}
