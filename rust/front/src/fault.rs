//! Why there is no answer: what is wrong, and where in the file it stands.

use std::error::Error;
use std::fmt;

/// A column of the file.
#[derive(Debug, Clone, Copy, PartialEq, Eq)]
pub enum Column {
    /// What the message is called.
    Name,
    /// Priority, or a FIFO.
    Queue,
    /// How long it is.
    Length,
    /// How often it comes at most.
    Period,
    /// By when it has to be sent.
    Deadline,
    /// By how much its queuing can be put off.
    Jitter,
}

impl Column {
    /// All columns, in the order of the file.
    pub const ALL: [Column; 6] = [
        Column::Name,
        Column::Queue,
        Column::Length,
        Column::Period,
        Column::Deadline,
        Column::Jitter,
    ];

    /// The header line.
    pub const HEADER: &str = "name,queue,length,period,deadline,jitter";

    /// Its name in the header.
    pub fn name(self) -> &'static str {
        match self {
            Column::Name => "name",
            Column::Queue => "queue",
            Column::Length => "length",
            Column::Period => "period",
            Column::Deadline => "deadline",
            Column::Jitter => "jitter",
        }
    }
}

impl fmt::Display for Column {
    fn fmt(&self, f: &mut fmt::Formatter) -> fmt::Result {
        write!(f, "{}", self.name())
    }
}

/// What is wrong with a file or an order, and how to mend it.
#[derive(Debug, Clone, PartialEq, Eq)]
pub struct Fault {
    /// The number of the library's refusal, where it is one.
    pub number: Option<u32>,
    /// The line of the file, counted from 1, where there is one.
    pub line: Option<usize>,
    /// The column, where there is one.
    pub column: Option<Column>,
    /// What is wrong, what was expected, and how to mend it.
    pub message: String,
}

impl Fault {
    /// A fault that stands nowhere yet.
    pub fn new(message: impl Into<String>) -> Fault {
        Fault { number: None, line: None, column: None, message: message.into() }
    }

    /// The same, said by the library under this number.
    pub fn refusal(self, number: u32) -> Fault {
        Fault { number: Some(number), ..self }
    }

    /// The same on this line.
    pub fn on_line(self, line: usize) -> Fault {
        Fault { line: Some(line), ..self }
    }

    /// The same in this column.
    pub fn in_column(self, column: Column) -> Fault {
        Fault { column: Some(column), ..self }
    }

    /// The same in this field of a row of a book, which has no line to name: the words say where.
    pub fn in_row(self, row: usize, field: Column) -> Fault {
        Fault { message: format!("row {row}, {field}: {}", self.message), ..self }
    }
}

impl fmt::Display for Fault {
    fn fmt(&self, f: &mut fmt::Formatter) -> fmt::Result {
        match (self.line, self.column) {
            (Some(line), Some(column)) => write!(f, "line {line}, column {column}: ")?,
            (Some(line), None) => write!(f, "line {line}: ")?,
            (None, _) => (),
        }
        if let Some(number) = self.number {
            write!(f, "refusal {number}: ")?;
        }
        write!(f, "{}", self.message)
    }
}

impl Error for Fault {}
