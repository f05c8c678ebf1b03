//! A line split into its cells: one for each column, or what is wrong with their number.

use crate::fault::{Column, Fault};
use crate::lines::trimmed;
use crate::shown::{count, Quoted};

/// How many surplus columns are named.
const NAMED: usize = 3;

/// The six cells of a header.
pub fn of_header(text: &str) -> Result<[&str; 6], Fault> {
    cells(text, longer_header)
}

/// The six cells of a message.
pub fn of_message(text: &str) -> Result<[&str; 6], Fault> {
    cells(text, longer_line)
}

/// The six cells of a line, or a hint by this function where there are more.
fn cells(text: &str, hint: fn(&[&str]) -> String) -> Result<[&str; 6], Fault> {
    let cells: Vec<&str> = text.split(',').map(trimmed).collect();
    let quoted = Column::ALL.iter().zip(&cells).find(|(_, cell)| cell.contains('"'));
    if let Some((&column, _)) = quoted {
        let message = "quotes are not allowed: expected the plain text, which cannot hold a comma";
        return Err(Fault::new(message).in_column(column));
    }
    <[&str; 6]>::try_from(cells).map_err(|cells| {
        let hint = match cells.len() {
            1 if text.contains(';') => ": put commas between them, not semicolons".to_string(),
            7.. => format!(": {}", hint(&cells)),
            _ => String::new(),
        };
        wrong_number(cells.len(), &hint)
    })
}

fn wrong_number(found: usize, hint: &str) -> Fault {
    let found_columns = count(found, "column");
    let fault = Fault::new(format!("{found_columns}, expected 6 ({}){hint}", Column::HEADER));
    match Column::ALL.get(found) {
        Some(&column) => fault.in_column(column),
        None => fault,
    }
}

/// What to do about more than six cells. A spreadsheet writes empty ones for columns that were
/// once in use; else a comma stands where it is taken for the end of a cell.
fn longer_line(cells: &[&str]) -> String {
    let surplus = cells.len().saturating_sub(Column::ALL.len());
    match cells.iter().skip(Column::ALL.len()).all(|cell| cell.is_empty()) {
        true => format!("remove the empty {} at the end", columns(surplus)),
        false => "a name holds no comma, and decimals follow a point".to_string(),
    }
}

/// The same for a header, whose surplus columns can be told by their names.
fn longer_header(cells: &[&str]) -> String {
    let surplus = surplus(cells);
    if surplus.is_empty() {
        return longer_line(cells);
    }
    let some = surplus.iter().take(NAMED).map(|cell| Quoted(cell).to_string());
    let names = some.collect::<Vec<_>>().join(", ");
    let more = if surplus.len() > NAMED { ", ..." } else { "" };
    format!("remove the {} {names}{more}", columns(surplus.len()))
}

/// The names in a header that are not of it: what is left where the six stand among them in their
/// order, or else what is strange after the sixth. In a line that is no header at all, none is.
fn surplus<'a>(cells: &[&'a str]) -> Vec<&'a str> {
    let mut expected = Column::ALL.iter().peekable();
    let mut is_left = |cell: &&str| expected.next_if(|column| is_name(cell, column)).is_none();
    let left: Vec<&str> = cells.iter().copied().filter(|cell| is_left(cell)).collect();
    let is_known = |cell: &&str| Column::ALL.iter().any(|column| is_name(cell, column));
    let surplus = match expected.peek() {
        None => left,
        Some(_) if !cells.iter().any(is_known) => Vec::new(),
        Some(_) => {
            let last = cells.iter().copied().skip(Column::ALL.len());
            last.filter(|cell| !is_known(cell)).collect()
        }
    };
    surplus.into_iter().filter(|cell| !cell.is_empty()).collect()
}

/// Whether this cell of a header names the column, in any case.
pub fn is_name(cell: &str, column: &Column) -> bool {
    cell.eq_ignore_ascii_case(column.name())
}

fn columns(number: usize) -> &'static str {
    if number == 1 {
        "column"
    } else {
        "columns"
    }
}

#[cfg(test)]
mod tests {
    use super::{of_header, of_message};
    use crate::fault::Column;

    const OLD: &str = ": a name holds no comma, and decimals follow a point";

    fn ends(cells: Result<[&str; 6], crate::fault::Fault>, hint: &str) {
        let fault = cells.expect_err(hint);
        assert_eq!(fault.column, None);
        assert!(fault.message.ends_with(hint), "{hint} in {fault}");
    }

    #[test]
    fn more_cells_in_a_message() {
        ends(of_message("A,priority,std 8,9,9,0,"), ": remove the empty column at the end");
        ends(of_message("A,priority,std 8,9,9,0,, ,"), ": remove the empty columns at the end");
        ends(of_message("A,priority,std 8,2,5,2,0"), OLD);
        ends(of_message("A,priority,std 8,2,5,2,0,,"), OLD);
        ends(of_message("A,priority,std 8,9,9,0,,x"), OLD);
    }

    #[test]
    fn more_cells_in_a_header() {
        let header = |more: &str| format!("{}{more}", Column::HEADER);
        ends(of_header(&header(",")), ": remove the empty column at the end");
        ends(of_header(&header(",,")), ": remove the empty columns at the end");
        ends(of_header(&header(",note")), ": remove the column `note`");
        ends(of_header(&header(",,Note ,")), ": remove the column `Note`");
        ends(of_header(&header(",a,b")), ": remove the columns `a`, `b`");
        ends(of_header(&header(",a,b,c,d")), ": remove the columns `a`, `b`, `c`, ...");
        // The one to be removed need not be the last.
        let id = "Name,id,queue,length,period,deadline,jitter";
        ends(of_header(id), ": remove the column `id`");
        let size = "name,queue,size,period,deadline,jitter,note";
        ends(of_header(size), ": remove the column `note`");
    }

    // Nothing that is in use, or that is no column, is to be removed.
    #[test]
    fn headers_that_are_none() {
        ends(of_header("Rudder,priority,ext 8,2,5,2,0"), OLD);
        ends(of_header("name,id,queue,size,period,deadline,jitter"), OLD);
    }
}
