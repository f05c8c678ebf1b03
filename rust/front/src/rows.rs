//! A file read line by line: the bit rate, the header, and a message on each line after it.

use std::collections::BTreeMap;

use crate::cells::{length, queue, time};
use crate::columns::{is_name, of_header, of_message};
use crate::fault::{Column, Fault};
use crate::lines::{lines, refuse_other_encodings, Line};
use crate::rate::Rate;
use crate::shown::Quoted;
use crate::table::{Message, Table};

/// The table in these bytes of a file, or what is wrong with the first line that is not right.
pub fn read(bytes: &[u8]) -> Result<Table, Fault> {
    if bytes.is_empty() {
        return Err(empty().on_line(1));
    }
    refuse_other_encodings(bytes).map_err(|fault| fault.on_line(1))?;
    let mut rows = Rows::default();
    for line in lines(bytes) {
        let line = line?;
        rows.take(line).map_err(|fault| on_line(fault, line))?;
    }
    rows.table()
}

/// What has been read of a table.
#[derive(Default)]
struct Rows {
    rate: Option<Rate>,
    /// The line of the header.
    header: Option<usize>,
    messages: Vec<Message>,
    /// The line of each name.
    names: BTreeMap<String, usize>,
    /// The last line taken.
    last: usize,
}

impl Rows {
    /// Takes the next line.
    fn take(&mut self, line: Line) -> Result<(), Fault> {
        self.last = line.number;
        if line.is_comment() {
            let rate = Rate::of_comment(line)?;
            self.rate = self.rate.or(rate);
            return Ok(());
        }
        if line.is_blank() {
            return Ok(());
        }
        if self.header.is_none() {
            self.header = Some(line.number);
            return header(line.text);
        }
        self.put(message(line, self.rate)?)
    }

    /// Takes this message, if its name is new.
    fn put(&mut self, message: Message) -> Result<(), Fault> {
        if let Some(other) = self.names.insert(message.name.clone(), self.last) {
            return Err(Fault::new(format!(
                "{} is already the name of the message on line {other}: expected a name of its own",
                Quoted(&message.name)
            ))
            .in_column(Column::Name));
        }
        self.messages.push(message);
        Ok(())
    }

    /// The table, if there is one.
    fn table(self) -> Result<Table, Fault> {
        match self.header {
            None => Err(missing("the file has no header line").on_line(self.last)),
            Some(line) if self.messages.is_empty() => {
                let message = "no message follows the header: expected a line for each";
                Err(Fault::new(message).on_line(line))
            }
            Some(_) => Ok(Table { rate: self.rate, messages: self.messages }),
        }
    }
}

/// The fault on this line. Spreadsheets write a row with nothing in it as commas: whatever is wrong
/// with those, nothing is lost without them.
fn on_line(fault: Fault, line: Line) -> Fault {
    let fault = fault.on_line(line.number);
    if !line.is_hollow() {
        return fault;
    }
    let way_out = "all cells of this line are empty: it can be deleted";
    Fault { message: format!("{}; {way_out}", fault.message), ..fault }
}

/// A shell makes the file before the program that is to fill it has said no.
fn empty() -> Fault {
    let fault = missing("the file is empty, neither a table nor a book");
    Fault { message: format!("{}; did the pack that made it fail?", fault.message), ..fault }
}

fn missing(what: &str) -> Fault {
    Fault::new(format!("{what}: expected `{}` and a line for each message", Column::HEADER))
}

fn header(text: &str) -> Result<(), Fault> {
    let expected = format!("expected the header line `{}` before the messages", Column::HEADER);
    let cells = of_header(text)
        .map_err(|fault| Fault { message: format!("{expected}: {}", fault.message), ..fault })?;
    let wrong = Column::ALL.iter().zip(cells).find(|(column, cell)| !is_name(cell, column));
    match wrong {
        None => Ok(()),
        Some((&column, cell)) => {
            let found = Quoted(cell);
            Err(Fault::new(format!("{expected}, found {found}")).in_column(column))
        }
    }
}

fn message(line: Line, rate: Option<Rate>) -> Result<Message, Fault> {
    let message = of_cells(of_message(line.text)?, rate)?;
    Ok(Message { line: Some(line.number), ..message })
}

/// The message that these cells tell, wherever they stand.
pub(crate) fn of_cells(cells: [&str; 6], rate: Option<Rate>) -> Result<Message, Fault> {
    let [name_cell, queue_cell, length_cell, period, deadline, jitter] = cells;
    Ok(Message {
        name: name(name_cell)?,
        line: None,
        queue: queue(queue_cell)?,
        length: length(length_cell)?,
        period: time(period, rate, Column::Period)?,
        deadline: time(deadline, rate, Column::Deadline)?,
        jitter: time(jitter, rate, Column::Jitter)?,
        written: cells.map(str::to_string),
    })
}

/// The name that this cell tells.
pub(crate) fn name(cell: &str) -> Result<String, Fault> {
    let wrong = match cell {
        "" => "the cell is empty: expected a name",
        _ if cell.starts_with('#') => {
            "a name cannot start with #: without the blank before it, the line would be a comment"
        }
        _ => return Ok(cell.to_string()),
    };
    Err(Fault::new(wrong).in_column(Column::Name))
}

#[cfg(test)]
mod tests {
    use super::read;
    use crate::fault::{Column, Fault};
    use crate::rate::Rate;
    use crate::table::{Length, Queue, Table};

    const HEADER: &str = "name,queue,length,period,deadline,jitter\n";

    fn good(text: &str) -> Table {
        read(text.as_bytes()).expect("a table")
    }

    fn fault(text: &str) -> Fault {
        read(text.as_bytes()).expect_err("a fault")
    }

    /// The line and the column of the fault in this text.
    fn place(text: &str) -> (Option<usize>, Option<Column>) {
        let fault = fault(text);
        (fault.line, fault.column)
    }

    #[test]
    fn words_as_in_document_01() {
        let table =
            good(&format!("{HEADER}A,priority,bits 125,1000,750,0\nB,fifo 3,ext 8,9,8,7\n"));
        assert_eq!(table.words(), [0, 0, 125, 1000, 750, 0, 3, 2, 8, 9, 8, 7]);
        assert_eq!(table.rate, None);
    }

    #[test]
    fn blanks_case_and_comments_do_not_matter() {
        let table = good(
            "# what it is: \"a, b\"\n\n Name , QUEUE,length, period,deadline,jitter  \n   \n\
             # a note\n  Main engine ,  Fifo  2 , Std 4 , 10 , 9 , 8 ",
        );
        let message = &table.messages[0];
        assert_eq!((message.name.as_str(), message.line), ("Main engine", Some(6)));
        assert_eq!((message.queue, message.length), (Queue::Fifo(2), Length::Std(4)));
        assert_eq!(table.words(), [2, 1, 4, 10, 9, 8]);
        assert_eq!(message.written(Column::Length), "Std 4");
        assert_eq!(message.written(Column::Jitter), "8");
    }

    #[test]
    fn milliseconds() {
        let table = good(&format!("# bitrate 250000\n{HEADER}A,priority,ext 8,10,9.9999,0.0001"));
        assert_eq!(table.rate, Rate::new(250_000));
        assert_eq!(table.words(), [0, 2, 8, 2500, 2499, 1]);
    }

    #[test]
    fn nothing_to_read() {
        assert_eq!(place(""), (Some(1), None));
        assert_eq!(place("\n\n# nothing\n"), (Some(3), None));
        assert_eq!(place(&format!("\n{HEADER}\n# nothing\n")), (Some(2), None));
        assert!(fault("").message.contains("the file is empty"));
        assert!(fault("\n").message.contains("no header"));
        assert!(fault(HEADER).message.contains("no message"));
    }

    #[test]
    fn headers() {
        let row = "A,priority,std 8,1000,1000,0\n";
        assert_eq!(place(row), (Some(1), Some(Column::Name)));
        assert_eq!(place("name,queue,length,period,jitter,deadline\n").1, Some(Column::Deadline));
        assert_eq!(place("name,queue,length,period,deadline\n").1, Some(Column::Jitter));
        assert_eq!(place("name;queue;length;period;deadline;jitter\n").1, Some(Column::Queue));
        assert!(fault("name;queue;length;period;deadline;jitter\n").message.contains("semicolons"));
        assert_eq!(place(&format!("{}, x\n", HEADER.trim())), (Some(1), None));
    }

    #[test]
    fn the_line_and_the_column_at_fault() {
        let rows = [
            ("A,priority,std 8,1000,1000", Some(Column::Jitter)),
            ("A,priority,std 8,2,5,2,0", None),
            (",priority,std 8,1000,1000,0", Some(Column::Name)),
            (" #1,priority,std 8,1000,1000,0", Some(Column::Name)),
            ("A,fifo 0,std 8,1000,1000,0", Some(Column::Queue)),
            ("A,priority,8,1000,1000,0", Some(Column::Length)),
            ("A,priority,std 8,1O00,1000,0", Some(Column::Period)),
            ("A,priority,std 8,1000,-1000,0", Some(Column::Deadline)),
            ("A,priority,std 8,1000,1000,", Some(Column::Jitter)),
            ("A,priority,std 8,1000,\"1000\",0", Some(Column::Deadline)),
            ("\"A, B\",priority,std 8,1000,1000,0", Some(Column::Name)),
            ("Z,priority,std 8,1000,1000,0", Some(Column::Name)),
        ];
        for (row, column) in rows {
            let text = format!("{HEADER}Z,priority,std 8,1000,1000,0\n\n{row}\n");
            assert_eq!(place(&text), (Some(4), column), "{row}");
        }
    }

    #[test]
    fn a_line_of_empty_cells_can_be_deleted() {
        let way_out = "; all cells of this line are empty: it can be deleted";
        let rows = [
            (",,,,,", Some(Column::Name)),
            (" , ,,,, ", Some(Column::Name)),
            (",,", Some(Column::Period)),
            (",,,,,,,", None),
        ];
        for (row, column) in rows {
            let text = format!("{HEADER}{row}\n");
            assert_eq!(place(&text), (Some(2), column), "{row}");
            assert!(fault(&text).message.ends_with(way_out), "{row}");
        }
        assert!(fault(&format!(",,,,,\n{HEADER}")).message.ends_with(way_out));
        assert!(!fault(&format!("{HEADER},,,,,0\n")).message.contains("deleted"));
    }

    // The first bad line is reported, whatever is bad further down.
    #[test]
    fn the_first_fault() {
        let text = format!("{HEADER}A,x,std 8,1,1,0\nB,priority,std 8,1,1,0\r\n");
        assert_eq!(place(&text), (Some(2), Some(Column::Queue)));
    }
}
