//! What is written of a message at the desk: it could stand on a line of a CSV, in the same sense.

use crate::columns::of_message;
use crate::fault::{Column, Fault};
use crate::lines::refuse_strange;
use crate::rate::Rate;
use crate::rows;
use crate::table::Message;

/// The message that these cells tell, at this bit rate if there is one.
pub fn message(cells: &[String; 6], rate: Option<Rate>) -> Result<Message, Fault> {
    for (&column, cell) in Column::ALL.iter().zip(cells) {
        one_cell(cell).map_err(|fault| fault.in_column(column))?;
    }
    rows::of_cells(of_message(&cells.join(","))?, rate)
}

/// Whether this text is the whole name of a message.
pub fn check_name(text: &str) -> Result<(), Fault> {
    one_cell(text)?;
    let line = format!("{text},,,,,");
    let [cell, ..] = of_message(&line)?;
    match rows::name(cell)? == text {
        true => Ok(()),
        false => Err(Fault::new("a name has no blanks around it")),
    }
}

/// Whether this text would stay in one cell of one line.
fn one_cell(text: &str) -> Result<(), Fault> {
    refuse_strange(text)?;
    match text.contains(',') {
        true => Err(Fault::new(
            "a comma is not allowed: a name holds none, and decimals follow a point",
        )),
        false => Ok(()),
    }
}

#[cfg(test)]
mod tests {
    use super::{check_name, message};
    use crate::fault::Column;
    use crate::rate::Rate;

    fn cells(cells: [&str; 6]) -> [String; 6] {
        cells.map(str::to_string)
    }

    #[test]
    fn as_on_a_line() {
        let told = cells([" Main engine ", "FIFO 2", "std  4", "10", "9.9999", "0.0001 "]);
        let told = message(&told, Rate::new(250_000)).expect("a message");
        assert_eq!((told.name.as_str(), told.line), ("Main engine", None));
        assert_eq!(told.words(), [2, 1, 4, 2500, 2499, 1]);
        assert_eq!(told.written(Column::Jitter), "0.0001");
    }

    #[test]
    fn the_column_at_fault() {
        let good = ["A", "priority", "std 8", "1000", "1000", "0"];
        let strange = ["a,b", "a\nb", "a\r", "a\tb", "\u{200b}", "\"a\"", "\n"];
        for (place, column) in Column::ALL.into_iter().enumerate() {
            for text in strange.into_iter().chain(["", "#"]) {
                let mut bad = good;
                bad[place] = text;
                let fault = message(&cells(bad), None).expect_err(text);
                assert_eq!((fault.line, fault.column), (None, Some(column)), "{text:?}");
            }
        }
    }

    #[test]
    fn names() {
        for name in ["A", "Main engine", "網", "-x", "007", "a#"] {
            assert_eq!(check_name(name), Ok(()), "{name}");
        }
        for name in ["", " ", " A", "A ", "#A", "a,b", "\"A\"", "a\"", "a\tb", "a\u{200b}", "a\0"] {
            assert!(check_name(name).is_err(), "{name:?}");
        }
    }
}
