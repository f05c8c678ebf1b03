//! The question put to the library, and its answer, highest priority first.

use telhavina::{Finding, Judgement, Refusal};

use crate::fault::Fault;
use crate::millis::{InMillis, Rounding};
use crate::order::Names;
use crate::rate::Rate;
use crate::refusal::in_words;
use crate::table::{Message, Queue, Table};

/// What is said of the whole table.
#[derive(Debug, Clone, Copy, PartialEq, Eq)]
pub enum Verdict {
    /// The order that was given passes.
    Passed,
    /// It does not; this is the first late place in it.
    Late {
        /// The place, counted from 0.
        place: usize,
    },
    /// An order that passes was found.
    Found {
        /// How many bands were tried.
        tried: usize,
    },
    /// There is none.
    NoOrder {
        /// The bands that cannot be placed.
        unplaced: usize,
        /// How many bands were tried.
        tried: usize,
    },
}

/// What is said of one message, in bit times.
#[derive(Debug, Clone, Copy, PartialEq, Eq)]
pub struct Judged {
    /// Its row.
    pub row: u32,
    /// The time within which it is sent, unless it is late.
    pub figure: Option<u32>,
    /// The time its verdict goes by.
    pub allowed: u32,
}

/// The same in milliseconds, as it is shown.
#[derive(Debug, Clone, Copy, PartialEq, Eq)]
pub struct Timed {
    /// The figure, unless the message is late.
    pub figure: Option<InMillis>,
    /// The time its verdict goes by.
    pub allowed: InMillis,
    /// What is left of that, unless the message is late.
    pub slack: Option<InMillis>,
}

/// What the library answers, ready to be shown.
#[derive(Debug, Clone, PartialEq, Eq)]
pub struct Answer {
    /// Of the whole table.
    pub verdict: Verdict,
    /// Of each message, highest priority first; of none where there is no order.
    pub judged: Vec<Judged>,
}

impl Answer {
    /// Whether there is an order that passes.
    pub fn is_good(&self) -> bool {
        matches!(self.verdict, Verdict::Passed | Verdict::Found { .. })
    }

    /// The bands that cannot be placed and those that were tried, where there is no order.
    pub(crate) fn no_order(&self) -> Option<(usize, usize)> {
        match self.verdict {
            Verdict::NoOrder { unplaced, tried } => Some((unplaced, tried)),
            _ => None,
        }
    }

    /// How many bands were tried, where an order was looked for.
    pub(crate) fn tried(&self) -> usize {
        match self.verdict {
            Verdict::Found { tried } | Verdict::NoOrder { tried, .. } => tried,
            Verdict::Passed | Verdict::Late { .. } => 0,
        }
    }

    /// How many messages are late.
    pub fn late(&self) -> usize {
        self.judged.iter().filter(|judged| judged.figure.is_none()).count()
    }
}

impl Judged {
    /// What is left of the time allowed, unless the message is late.
    pub fn slack(&self) -> Option<u32> {
        self.figure.map(|figure| self.allowed.saturating_sub(figure))
    }

    /// Its times in milliseconds, none of them better than it is.
    pub fn timed(&self, rate: Rate) -> Timed {
        Timed {
            figure: self.figure.map(|figure| rate.millis(figure, Rounding::Up)),
            allowed: rate.millis(self.allowed, Rounding::Down),
            slack: self.slack().map(|slack| rate.millis(slack, Rounding::Down)),
        }
    }
}

/// Judges this order of the table or, if there is none, that of the file.
pub fn judge(table: &Table, order: Option<&str>) -> Result<Answer, Fault> {
    let entries = order.map(|order| Names::of(table).read(order)).transpose()?;
    let rows: Vec<u32> = match &entries {
        Some(entries) => entries.iter().map(|entry| entry.row).collect(),
        None => (0..).take(table.messages.len()).collect(),
    };
    judge_rows(table, &rows).map_err(|refusal| in_words(refusal, table, entries.as_deref()))
}

/// Finds an order for the table, and judges it for the figures.
pub fn find(table: &Table) -> Result<Answer, Fault> {
    let mut order = vec![0; table.messages.len()];
    let tried = match telhavina::find(&table.words(), &mut order) {
        Finding::Found { tried } => tried,
        Finding::Refused(Refusal::NoOrder { unplaced, tried }) => {
            let verdict = Verdict::NoOrder { unplaced, tried };
            return Ok(Answer { verdict, judged: Vec::new() });
        }
        Finding::Refused(refusal) => return Err(in_words(refusal, table, None)),
    };
    match judge_rows(table, &order) {
        Ok(Answer { verdict: Verdict::Passed, judged }) => {
            Ok(Answer { verdict: Verdict::Found { tried }, judged })
        }
        // The library promises that this does not happen; if it did, no order must be shown.
        _ => Err(Fault::new("the order found does not pass when it is judged")),
    }
}

/// The answer on this order, highest priority first.
fn judge_rows(table: &Table, order: &[u32]) -> Result<Answer, Refusal> {
    let mut figures = vec![0; table.messages.len()];
    let verdict = match telhavina::judge(&table.words(), order, &mut figures) {
        Judgement::Passed => Verdict::Passed,
        Judgement::Late { place } => Verdict::Late { place },
        Judgement::Refused(refusal) => return Err(refusal),
    };
    let judged = order.iter().filter_map(|&row| {
        // A late row has the figure 0, and no other has.
        let figure = figures.get(row as usize).copied().filter(|&figure| figure > 0);
        Some(Judged { row, figure, allowed: allowed(table, row)? })
    });
    Ok(Answer { verdict, judged: judged.collect() })
}

/// The time after queuing that the verdict on this row goes by: the least of its band.
fn allowed(table: &Table, row: u32) -> Option<u32> {
    let own = table.message(row)?;
    let band = table.messages.iter().filter(|other| match own.queue {
        Queue::Priority => false,
        Queue::Fifo(_) => other.queue == own.queue,
    });
    band.chain([own]).map(after_queuing).min()
}

fn after_queuing(message: &Message) -> u32 {
    message.deadline.saturating_sub(message.jitter)
}
