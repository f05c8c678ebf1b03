//! An order of priority as the officer writes it: names or row numbers, with commas between them.

use std::collections::BTreeMap;

use crate::alike::{but_for_case, did_you_mean};
use crate::fault::Fault;
use crate::lines::trimmed;
use crate::shown::Quoted;
use crate::table::Table;

/// How many names are called to mind where one is not known.
const CALLED_TO_MIND: usize = 12;

/// One entry of an order.
#[derive(Debug, Clone, PartialEq, Eq)]
pub struct Entry {
    /// As it was written.
    pub written: String,
    /// The row it stands for, or a number that is no row: the library says so.
    pub row: u32,
}

/// The messages of a table by their names.
pub struct Names<'a> {
    rows: BTreeMap<&'a str, u32>,
    table: &'a Table,
}

/// What an entry can stand for.
enum Meaning {
    Row(u32),
    /// One row by its name and another by its number.
    Either(u32, u32),
    Nothing,
}

impl<'a> Names<'a> {
    /// The names of this table.
    pub fn of(table: &'a Table) -> Names<'a> {
        let names = table.messages.iter().map(|message| message.name.as_str());
        Names { rows: names.zip(0..).collect(), table }
    }

    /// The entries of this order; one of blanks only has none.
    pub fn read(&self, order: &str) -> Result<Vec<Entry>, Fault> {
        if trimmed(order).is_empty() {
            return Ok(Vec::new());
        }
        let entries = order.split(',').map(trimmed).enumerate();
        entries.map(|(place, entry)| self.entry(place, entry)).collect()
    }

    fn entry(&self, place: usize, written: &str) -> Result<Entry, Fault> {
        let row = match self.meaning(written) {
            Meaning::Row(row) => row,
            Meaning::Either(named, numbered) => {
                let why = self.ambiguous(named, numbered);
                let entry = Quoted(written);
                return Err(Fault::new(format!("ORDER entry {entry} (place {place}) {why}")));
            }
            Meaning::Nothing => return Err(self.unknown(place, written)),
        };
        Ok(Entry { written: written.to_string(), row })
    }

    /// The row that this text stands for where it is no order, but one message: none if it is
    /// neither a name nor a number.
    pub(crate) fn one(&self, written: &str) -> Result<Option<u32>, Fault> {
        match self.meaning(written) {
            Meaning::Row(row) => Ok(Some(row)),
            Meaning::Nothing => Ok(None),
            Meaning::Either(named, numbered) => {
                let why = self.ambiguous(named, numbered);
                Err(Fault::new(format!("{} {why}", Quoted(written))))
            }
        }
    }

    fn meaning(&self, entry: &str) -> Meaning {
        let is_number = entry.chars().all(|c| c.is_ascii_digit());
        let number = if is_number { entry.parse().ok() } else { None };
        let is_row = |number: u32| self.table.message(number).is_some();
        match (self.rows.get(entry).copied(), number) {
            (Some(named), Some(numbered)) if named != numbered && is_row(numbered) => {
                Meaning::Either(named, numbered)
            }
            (Some(row), _) | (None, Some(row)) => Meaning::Row(row),
            (None, None) => Meaning::Nothing,
        }
    }

    fn ambiguous(&self, named: u32, numbered: u32) -> String {
        let (by_name, by_number) = (self.written(named), self.written(numbered));
        format!(
            "is ambiguous: it is the name of row {named} and the number of row {numbered}; write \
             {} for the first or {} for the second",
            Quoted(&by_name),
            Quoted(&by_number)
        )
    }

    fn unknown(&self, place: usize, entry: &str) -> Fault {
        if entry.is_empty() {
            return Fault::new(format!(
                "ORDER place {place} is empty: expected a name or a row number; is there a comma \
                 too many?"
            ));
        }
        Fault::new(format!(
            "ORDER entry {} (place {place}) is neither a name nor a row number of the file; {}",
            Quoted(entry),
            self.hint(entry)
        ))
    }

    /// What could have been written in the place of this.
    pub(crate) fn hint(&self, written: &str) -> String {
        let alike = but_for_case(written, self.rows.keys().copied());
        alike.map_or_else(|| self.known(), did_you_mean)
    }

    /// The names there are, in the order of the file.
    fn known(&self) -> String {
        let names = self.table.messages.iter().map(|message| Quoted(&message.name).to_string());
        let some: Vec<String> = names.take(CALLED_TO_MIND).collect();
        let more = if self.table.messages.len() > CALLED_TO_MIND { ", ..." } else { "" };
        format!("there are {}{more}", some.join(", "))
    }

    /// An entry that stands for this row and for no other: its name if that does, or its number,
    /// with zeros before it for as long as it is another's name.
    pub fn written(&self, row: u32) -> String {
        let is_meant = |entry: &String| matches!(self.meaning(entry), Meaning::Row(r) if r == row);
        let name = self.table.message(row).map(|message| message.name.clone());
        // A dash in front would be taken for an option where the order is an argument.
        let name = name.filter(|name| !name.starts_with('-')).filter(is_meant);
        let numbers = || (0..).map(|zeros| format!("{}{row}", "0".repeat(zeros))).find(is_meant);
        name.or_else(numbers).unwrap_or_default()
    }

    /// The order with these rows, as it can be read again.
    pub fn write(&self, rows: impl Iterator<Item = u32>) -> String {
        rows.map(|row| self.written(row)).collect::<Vec<_>>().join(",")
    }
}

/// The text, an order or a file, as one argument of a shell, in quotes where it has to be.
pub fn as_argument(text: &str) -> String {
    let is_plain = |c: char| c.is_alphanumeric() || "_-.,:/+@%".contains(c);
    match text.chars().all(is_plain) {
        true => text.to_string(),
        false => format!("'{}'", text.replace('\'', "'\\''")),
    }
}

#[cfg(test)]
mod tests {
    use super::{as_argument, Names};
    use crate::table::{read, Table};

    fn table(names: &[&str]) -> Table {
        let rows = names.iter().map(|name| format!("{name},priority,std 8,1000,1000,0\n"));
        let text = format!("{}\n{}", crate::fault::Column::HEADER, rows.collect::<String>());
        read(text.as_bytes()).expect("a table")
    }

    fn rows(table: &Table, order: &str) -> Result<Vec<u32>, String> {
        let entries = Names::of(table).read(order).map_err(|fault| fault.message)?;
        Ok(entries.iter().map(|entry| entry.row).collect())
    }

    #[test]
    fn names_and_numbers() {
        let table = table(&["A", "Main engine", "ø"]);
        assert_eq!(rows(&table, "ø, Main engine ,0"), Ok(vec![2, 1, 0]));
        assert_eq!(rows(&table, "002,1"), Ok(vec![2, 1]));
        assert_eq!(rows(&table, ""), Ok(vec![]));
        assert_eq!(rows(&table, "  "), Ok(vec![]));
        // What is no row, or one twice, is for the library to refuse.
        assert_eq!(rows(&table, "3,3,4294967295"), Ok(vec![3, 3, u32::MAX]));
    }

    #[test]
    fn entries_that_are_neither() {
        let table = table(&["A", "Main engine"]);
        for order in ["B", "A,,0", "A,", ",", "-1", "4294967296", "A;B", "1.0", "+1", "a b"] {
            assert!(rows(&table, order).is_err(), "{order}");
        }
        let words = rows(&table, "A,main ENGINE").expect_err("another case");
        assert!(words.contains("place 1") && words.contains("mean `Main engine`?"), "{words}");
        let words = rows(&table, "X").expect_err("unknown");
        assert!(words.contains("there are `A`, `Main engine`"), "{words}");
    }

    #[test]
    fn a_name_that_is_a_number() {
        // Of a row that is not there, of its own row, of another's.
        let table = table(&["7", "1", "0"]);
        assert_eq!(rows(&table, "7,1"), Ok(vec![0, 1]));
        let words = rows(&table, "1,0").expect_err("ambiguous");
        assert!(words.contains("ambiguous") && words.contains("place 1"), "{words}");
        assert!(words.contains("write `2` for the first or `7` for the second"), "{words}");
    }

    // Whatever the names are, each order can be written so that it is read as the same.
    #[test]
    fn what_is_written_is_read_again() {
        for names in [["1", "0", "-x"], ["1", "2", "0"], ["01", "00", "0"], ["a b", "c'd", "$2"]] {
            let table = table(&names);
            let order = Names::of(&table).write([2, 0, 1].into_iter());
            assert_eq!(rows(&table, &order), Ok(vec![2, 0, 1]), "{order}");
            assert!(!order.starts_with('-'), "{order}");
        }
    }

    #[test]
    fn quotes_for_the_shell() {
        assert_eq!(as_argument("C,F,ø.1"), "C,F,ø.1");
        assert_eq!(as_argument("Main engine,C"), "'Main engine,C'");
        assert_eq!(as_argument("c'd,$x"), "'c'\\''d,$x'");
    }
}
