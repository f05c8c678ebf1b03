//! Inputs for a finder: tables that have many orders that pass, or few, or none, and damaged ones.

use std::cmp::Reverse;
use std::fmt;

use crate::damage;
use crate::extremes;
use crate::fields::{allowed, Row};
use crate::plans::{self, loaded, vehicle_row};
use crate::prng::Prng;
use crate::style::{Length, Style};
use crate::{show_lent, show_table, spare, tighten, Case};

/// Of a hundred cases, how many are damaged.
const DAMAGED: u32 = 30;

/// One input for a finder.
#[derive(Debug, Clone, PartialEq, Eq)]
pub struct FindCase {
    /// The seed it was made from.
    pub seed: u64,
    /// The words of the table.
    pub table: Vec<u32>,
    /// The list lent for the order, with what it holds beforehand.
    pub order: Vec<u32>,
}

/// The finding case of this seed.
pub fn find_case(seed: u64) -> FindCase {
    let mut prng = Prng::new(seed);
    let rows = any(&mut prng);
    let mut case = Case::of(seed, &rows, Vec::new(), spare(&mut prng), &mut prng);
    if prng.chance(DAMAGED) {
        damage::damage(&mut case, &damage::FOR_FINDING, &mut prng);
    }
    FindCase::from(case)
}

impl FindCase {
    /// One boundary row, to be found alone; its lent list has one place to spare.
    pub fn of_one_row(row: Row) -> FindCase {
        FindCase::from(Case::of_one_row(row))
    }

    /// The same case with each deadline cut to what is just enough for these figures, and that
    /// of `late_row`, if there is one, to one bit time less.
    pub fn tightened(&self, figures: &[u32], late_row: Option<usize>) -> FindCase {
        let mut tight = self.clone();
        tighten(&mut tight.table, figures, late_row);
        tight
    }
}

/// The room for the figures becomes that for the order.
impl From<Case> for FindCase {
    fn from(case: Case) -> FindCase {
        FindCase { seed: case.seed, table: case.table, order: case.figures }
    }
}

impl fmt::Display for FindCase {
    fn fmt(&self, f: &mut fmt::Formatter) -> fmt::Result {
        show_table(f, self.seed, &self.table)?;
        show_lent(f, &self.order)
    }
}

/// A good table of any kind. A third has few rows of small numbers, a third is allowed just
/// enough time or just too little.
pub(crate) fn any(prng: &mut Prng) -> Vec<Row> {
    let style = Style::any(prng);
    let mut rows = match prng.below(100) {
        0..=32 => loaded(&style, 8, prng, |prng| Length::bits(1, 12, prng)),
        33..=65 => extremes::just_enough(&style, prng),
        66..=75 => loaded(&style, 64, prng, |prng| Length::either(1, 160, prng)),
        76..=85 => (0..prng.between(1, 64)).map(|_| vehicle_row(&style, prng)).collect(),
        _ => plans::any(prng).rows,
    };
    arrange(&mut rows, prng);
    rows
}

/// Arranges the rows in one of several ways. With those that are allowed the least time first,
/// the rows that fit the low places are found late; the other way round, soon.
fn arrange(rows: &mut [Row], prng: &mut Prng) {
    match prng.below(4) {
        0 => {}
        1 => rows.sort_by_key(allowed),
        2 => rows.sort_by_key(|row| Reverse(allowed(row))),
        _ => prng.shuffle(rows),
    }
}
