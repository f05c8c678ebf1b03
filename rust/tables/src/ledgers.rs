//! Ledgers that a history at the claim desk starts from: fresh ones, and any others that may be
//! lent, also such as no desk would have made.

use crate::books::{any_rows, MAX_ROWS};
use crate::fields::{bad_words, Row, MAX_PERIOD};
use crate::prng::Prng;
use crate::style::{Length, Style};

/// Words in a ledger: six for each row that it has room for.
const WORDS: usize = 6 * MAX_ROWS as usize;
/// The least rows of a ledger that is nearly full.
pub(crate) const NEARLY_FULL: u32 = MAX_ROWS - 4;

/// The ledger that is lent to the first call.
#[derive(Debug, Clone, PartialEq, Eq)]
pub struct Start {
    /// The words of the held rows, and then any words.
    pub words: [u32; WORDS],
    /// How many rows it says it holds.
    pub held: u32,
    /// Its edition.
    pub edition: u32,
}

impl Start {
    /// The ledger of a desk that has granted nothing yet.
    fn fresh() -> Start {
        Start { words: [0; WORDS], held: 0, edition: 0 }
    }

    /// These rows, at most 64, in any edition, and with anything behind them.
    fn holding(rows: &[Row], prng: &mut Prng) -> Start {
        let mut words = [0; WORDS];
        fill_behind(&mut words, prng);
        words[..6 * rows.len()].copy_from_slice(rows.as_flattened());
        let any = prng.word() as u32;
        let edition = prng.pick(&[0, 1, rows.len() as u32, 1_000, 1 << 31, any]);
        Start { words, held: rows.len() as u32, edition }
    }
}

/// A start of any kind: half of them are fresh.
pub(crate) fn any(style: &Style, prng: &mut Prng) -> Start {
    match prng.below(100) {
        0..=54 => Start::fresh(),
        55..=64 => Start::holding(&light_rows(style, NEARLY_FULL, MAX_ROWS, prng), prng),
        65..=74 => nearly_closed(style, prng),
        75..=79 => over_the_limit(style, prng),
        80..=84 => with_bad_rows(style, prng),
        85..=92 => without_an_order(style, prng),
        _ => Start::holding(&light_rows(style, 0, 20, prng), prng),
    }
}

/// A row that leaves room for many others: its period is long, and so is what it is allowed.
pub(crate) fn light_row(style: &Style, prng: &mut Prng) -> Row {
    let period = prng.between(MAX_PERIOD / 5, MAX_PERIOD);
    let mut row = style.row(Length::either(1, 160, prng), period, prng);
    // Even 64 rows are done within a tenth of the least period.
    row[4] = row[4].max(period / 2);
    row[5] = row[5].min(period / 4);
    row
}

/// So many light rows.
fn light_rows(style: &Style, least: u32, most: u32, prng: &mut Prng) -> Vec<Row> {
    (0..prng.between(least, most)).map(|_| light_row(style, prng)).collect()
}

/// Refusal 9: the edition is the greatest, or will be so after a few changes.
fn nearly_closed(style: &Style, prng: &mut Prng) -> Start {
    let edition = u32::MAX - prng.pick(&[0, 1, 1, 2, 3, 6, 12]);
    Start { edition, ..Start::holding(&light_rows(style, 0, 12, prng), prng) }
}

/// Refusal 23: more rows than there is room for, often just one more.
fn over_the_limit(style: &Style, prng: &mut Prng) -> Start {
    let least = prng.pick(&[0, MAX_ROWS]);
    let any = prng.between(MAX_ROWS + 1, u32::MAX);
    let held = prng.pick(&[65, 65, 66, 128, 256, 256 + 3, 1 << 16, 1 << 31, u32::MAX, any]);
    Start { held, ..perhaps_closed(&light_rows(style, least, MAX_ROWS, prng), prng) }
}

/// Refusal 23: one of the held rows, or two, with a word that its field does not allow.
fn with_bad_rows(style: &Style, prng: &mut Prng) -> Start {
    let most = prng.pick(&[1, 8, MAX_ROWS]);
    let mut rows = light_rows(style, 1, most, prng);
    for _ in 0..prng.between(1, 2) {
        let at = prng.below(rows.len());
        let at = prng.pick(&[0, at, rows.len() - 1]);
        spoil(&mut rows[at], prng);
    }
    perhaps_closed(&rows, prng)
}

/// Good rows that have no order until one or two, which are allowed too little time, are withdrawn.
fn without_an_order(style: &Style, prng: &mut Prng) -> Start {
    let mut rows = light_rows(style, 0, 10, prng);
    for _ in 0..prng.between(1, 2) {
        let c = prng.between(1, 160);
        let too_little = prng.between(1, 2 * c - 1);
        let hurried = [0, 0, c, prng.between(too_little, MAX_PERIOD), too_little, 0];
        rows.insert(prng.below(rows.len() + 1), hurried);
    }
    Start::holding(&rows, prng)
}

/// These rows; now and then the ledger is closed, which does not count where 23 is due.
fn perhaps_closed(rows: &[Row], prng: &mut Prng) -> Start {
    let mut start = Start::holding(rows, prng);
    if prng.chance(20) {
        start.edition = u32::MAX;
    }
    start
}

/// Puts a word that is not allowed into one field of a good row.
pub(crate) fn spoil(row: &mut Row, prng: &mut Prng) {
    let field = prng.below(6);
    row[field] = prng.pick(&bad_words(row, field));
}

/// Words for the places behind the held rows: none, any, or those of rows that were withdrawn.
fn fill_behind(words: &mut [u32; WORDS], prng: &mut Prng) {
    match prng.below(4) {
        0 => {}
        1..=2 => words.copy_from_slice(&any_rows(MAX_ROWS, prng)),
        _ => {
            let row = [prng.between(0, 2), prng.between(0, 2), 8, 1_000, 900, 10];
            words.as_chunks_mut().0.fill(row);
        }
    }
}
