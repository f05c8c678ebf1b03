//! The answer as a person reads it: a title, a table that lines up, and the verdict.

use std::fmt;

use crate::answer::{Answer, Judged, Verdict};
use crate::load::Source;
use crate::order::{as_argument, Names};
use crate::rate::Rate;
use crate::shown::{count, Shown};
use crate::table::Table;

const IN_BIT_TIMES: [&str; 6] = ["name", "row", "queue", "figure", "allowed", "slack"];
const IN_MILLIS: [&str; 3] = ["figure ms", "allowed ms", "slack ms"];
/// The columns that hold text, which starts where the column does; numbers end where it does.
const TEXT: [usize; 2] = [0, 2];
/// What a line starts with: one that is late can be looked for by it.
const LATE: &str = "! ";
const NOT_LATE: &str = "  ";
/// A longer name stands out to the right, rather than pushing all the others that far.
const WIDEST: usize = 200;

/// The answer on the table of this file.
pub struct Report<'a> {
    /// The file.
    pub file: &'a Source,
    /// The table in it.
    pub table: &'a Table,
    /// What is said of it.
    pub answer: &'a Answer,
}

impl fmt::Display for Report<'_> {
    fn fmt(&self, f: &mut fmt::Formatter) -> fmt::Result {
        let messages = count(self.table.messages.len(), "message");
        let times = times(self.table.rate);
        writeln!(f, "{}: {messages}, {times}", Shown(&self.file.name()))?;
        if !self.answer.judged.is_empty() {
            self.table(f)?;
        }
        self.verdict(f)
    }
}

impl Report<'_> {
    /// A line for each message, highest priority first.
    pub(crate) fn table(&self, f: &mut fmt::Formatter) -> fmt::Result {
        let head = IN_BIT_TIMES.iter().chain(self.table.rate.iter().flat_map(|_| &IN_MILLIS));
        let head: Vec<String> = head.map(ToString::to_string).collect();
        let rows = self.answer.judged.iter().map(|judged| self.cells(judged));
        let lines: Vec<Vec<String>> = [head].into_iter().chain(rows).collect();
        let widths = widths(&lines);
        let lates = self.answer.judged.iter().map(|judged| judged.figure.is_none());
        [false].into_iter().chain(lates).zip(&lines).try_for_each(|(late, cells)| {
            let start = if late { LATE } else { NOT_LATE };
            writeln!(f, "{}", format!("{start}{}", aligned(cells, &widths)).trim_end())
        })
    }

    fn cells(&self, judged: &Judged) -> Vec<String> {
        let mut cells = vec![
            self.table.name(judged.row).to_string(),
            judged.row.to_string(),
            or(self.table.message(judged.row).map(|message| message.queue), ""),
            or(judged.figure, "late"),
            judged.allowed.to_string(),
            or(judged.slack(), "-"),
        ];
        cells.extend(self.table.rate.iter().flat_map(|&rate| in_millis(judged, rate)));
        cells
    }

    fn verdict(&self, f: &mut fmt::Formatter) -> fmt::Result {
        let judged = &self.answer.judged;
        match self.answer.verdict {
            Verdict::Passed => writeln!(f, "passed: every message is sent within its time"),
            Verdict::Late { place } => {
                let name = judged.get(place).map_or("", |judged| self.table.name(judged.row));
                let (late, of) = (self.answer.late(), count(judged.len(), "message"));
                writeln!(
                    f,
                    "late: {late} of {of}; the first in the order is {name} (place {place})"
                )
            }
            Verdict::Found { tried } => {
                let order = Names::of(self.table).write(judged.iter().map(|judged| judged.row));
                writeln!(f, "found: order {} ({tried} tried)", as_argument(&order))
            }
            Verdict::NoOrder { unplaced, tried } => {
                let bands = count(unplaced, "band");
                writeln!(f, "no order: {bands} cannot be placed, {tried} tried")?;
                self.next_step(f)
            }
        }
    }

    /// Where there is no order, there is no table to go by: what gives one.
    fn next_step(&self, f: &mut fmt::Formatter) -> fmt::Result {
        let argument = as_argument(&self.file.argument());
        writeln!(
            f,
            "next: telhavina judge {} [ORDER] shows which messages are late, and what each is \
             allowed",
            Shown(&argument)
        )
    }
}

/// What times are in: the bit rate says it, where there is one.
pub(crate) fn times(rate: Option<Rate>) -> String {
    or(rate, "times in bit times")
}

fn in_millis(judged: &Judged, rate: Rate) -> [String; 3] {
    let timed = judged.timed(rate);
    [or(timed.figure, "late"), timed.allowed.to_string(), or(timed.slack, "-")]
}

fn or(number: Option<impl fmt::Display>, otherwise: &str) -> String {
    number.map_or_else(|| otherwise.to_string(), |number| number.to_string())
}

/// The characters of the longest cell of each column.
fn widths(lines: &[Vec<String>]) -> Vec<usize> {
    let mut widths = Vec::new();
    for cells in lines {
        widths.resize(cells.len(), 0);
        for (width, cell) in widths.iter_mut().zip(cells) {
            *width = chars(cell).min(WIDEST).max(*width);
        }
    }
    widths
}

fn chars(text: &str) -> usize {
    text.chars().count()
}

/// The cells with two blanks between them, filled up to the widths of their columns.
fn aligned(cells: &[String], widths: &[usize]) -> String {
    let cells = cells.iter().zip(widths).enumerate().map(|(column, (cell, &width))| {
        let blanks = " ".repeat(width.saturating_sub(chars(cell)));
        if TEXT.contains(&column) {
            format!("{cell}{blanks}")
        } else {
            format!("{blanks}{cell}")
        }
    });
    cells.collect::<Vec<_>>().join("  ")
}

#[cfg(test)]
mod tests {
    use super::Report;
    use crate::answer::{find, judge};
    use crate::load::Source;
    use crate::table::read;

    fn shown(text: &str) -> String {
        let table = read(text.as_bytes()).expect("a table");
        let answer = judge(&table, None).expect("an answer");
        let file = &Source::Path("a\nb.csv".into());
        Report { file, table: &table, answer: &answer }.to_string()
    }

    #[test]
    fn letters_of_any_language_line_up() {
        let text = "name,queue,length,period,deadline,jitter\n\
                    Kühlraum,priority,bits 10,100,100,0\nØ,priority,bits 10,100,39,0\n";
        assert_eq!(
            shown(text),
            "a\\nb.csv: 2 messages, times in bit times\n\
             \x20 name      row  queue     figure  allowed  slack\n\
             \x20 Kühlraum    0  priority      20      100     80\n\
             \x20 Ø           1  priority      30       39      9\n\
             passed: every message is sent within its time\n"
        );
    }

    #[test]
    fn no_order_is_not_the_last_word() {
        let text = "name,queue,length,period,deadline,jitter\nA,priority,bits 10,19,19,0\n";
        let table = read(text.as_bytes()).expect("a table");
        let answer = find(&table).expect("an answer");
        let path = |path: &str| Source::Path(path.into());
        for (file, name, argument) in [
            (path("a.csv"), "a.csv", "a.csv"),
            (path("the yard's\n"), "the yard's\\n", "'the yard'\\''s\\n'"),
            (path("-a"), "-a", "./-a"),
            (Source::Input, "standard input", "-"),
        ] {
            let report = Report { file: &file, table: &table, answer: &answer }.to_string();
            let expected = format!(
                "{name}: 1 message, times in bit times\n\
                 no order: 1 band cannot be placed, 1 tried\n\
                 next: telhavina judge {argument} [ORDER] shows which messages are late, and what \
                 each is allowed\n"
            );
            assert_eq!(report, expected);
        }
    }

    // Widths of more than 16 bits are more than the standard library would fill up to.
    #[test]
    fn a_name_of_any_length_is_not_cut() {
        let name = "ø".repeat(70_000);
        let text = format!(
            "name,queue,length,period,deadline,jitter\n{name},priority,bits 10,100,19,0\n\
             B,priority,bits 10,100,100,0\n"
        );
        let shown = shown(&text);
        assert!(shown.contains(&format!("! {name}    0  priority    late")), "the late line");
        assert!(shown.contains(&format!("the first in the order is {name} (place 0)")));
        assert!(shown.lines().any(|line| line.starts_with("  B ") && line.len() < 300));
    }

    #[test]
    fn milliseconds_do_not_flatter() {
        let text = "# bitrate 33333\nname,queue,length,period,deadline,jitter\n\
                    A,priority,bits 10,100,3.0004,0\n";
        let shown = shown(text);
        // 20 bit times are 0.60000600006 ms, 100 are 3.00003 ms, and 80 are 2.40002.
        assert!(shown.contains("20      100     80      0.601       3.000     2.400\n"), "{shown}");
    }
}
