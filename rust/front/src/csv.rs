//! The table of a book written as a CSV, for judge, find and pack to read.

use crate::fault::{Column, Fault};
use crate::shown::Quoted;
use crate::table::{Length, Message, Table};

/// The table as a CSV, in whole bit times, unless it holds what no cell can tell.
pub fn write(table: &Table) -> Result<String, Fault> {
    let lines = table.messages.iter().enumerate().map(|(row, message)| line(row, message));
    let lines: Vec<String> = lines.collect::<Result<_, _>>()?;
    Ok(format!("{}\n{}\n", Column::HEADER, lines.join("\n")))
}

fn line(row: usize, message: &Message) -> Result<String, Fault> {
    match message.length {
        Length::Bits(_) | Length::Std(_) | Length::Ext(_) => Ok(message.written.join(",")),
        Length::Other { .. } => {
            let length = Quoted(message.written(Column::Length));
            let why = format!("{length} cannot be written in a CSV: {}", Length::FORMS);
            Err(Fault::new(why).in_row(row, Column::Length))
        }
    }
}

#[cfg(test)]
mod tests {
    use super::write;
    use crate::table::{Message, Table};

    fn csv(rows: &[[u32; 6]]) -> Result<String, String> {
        let messages = rows.iter().enumerate().map(|(row, words)| Message::of_words(row, *words));
        let table = Table { rate: None, messages: messages.collect() };
        write(&table).map_err(|fault| fault.to_string())
    }

    // What judging would refuse is written all the same.
    #[test]
    fn any_number_is_written() {
        let most = u32::MAX;
        assert_eq!(
            csv(&[[0, 0, 125, 1000, 750, 0], [99, 1, 9, 0, 5, 7], [most, 2, most, most, 0, most]]),
            Ok("name,queue,length,period,deadline,jitter\n\
                row0,priority,bits 125,1000,750,0\n\
                row1,fifo 99,std 9,0,5,7\n\
                row2,fifo 4294967295,ext 4294967295,4294967295,0,4294967295\n"
                .to_string())
        );
    }

    #[test]
    fn a_form_that_no_cell_tells() {
        let said = csv(&[[0, 0, 125, 1000, 750, 0], [0, 3, 15, 9, 9, 0], [0, 4, 1, 9, 9, 0]]);
        let words = said.expect_err("no CSV");
        assert!(words.starts_with("row 1, length: `form 3 size 15` cannot be written"), "{words}");
    }
}
