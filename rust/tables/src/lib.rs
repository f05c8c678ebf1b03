//! A seeded maker of inputs for judging and for finding, and for reading and writing books: tables,
//! orders and books that are good, and ones that are damaged so that each refusal of document 01
//! and of request L1 comes up; and of histories for a claim desk, in which each reply of request L4
//! comes up. It knows the limits of the fields; it judges nothing.

mod book_damage;
mod books;
mod damage;
mod extremes;
mod fields;
mod find_speed;
mod finding;
mod histories;
mod ledgers;
mod orders;
mod plans;
mod prng;
mod speed;
mod style;

use std::fmt;

pub use books::{any_rows, book_of, lent_bytes, read_case, write_case, ReadCase, WriteCase};
pub use fields::{boundary_rows, Row};
pub use find_speed::find_families;
pub use finding::{find_case, FindCase};
pub use histories::{history, Call, History, Named, Seen};
pub use ledgers::Start;
pub use orders::{bands, every_order};
pub use prng::Prng;
pub use speed::{families, Family};

/// Of a hundred cases, how many are damaged.
const DAMAGED: u32 = 45;
/// Set in every lent word beforehand: no figure and no row number has it, so a word left alone can
/// be told.
const CANARY: u32 = 1 << 31;

/// One input for a judge.
#[derive(Debug, Clone, PartialEq, Eq)]
pub struct Case {
    /// The seed it was made from.
    pub seed: u64,
    /// The words of the table.
    pub table: Vec<u32>,
    /// The order.
    pub order: Vec<u32>,
    /// The list lent for figures, with what it holds beforehand.
    pub figures: Vec<u32>,
}

/// The case of this seed.
pub fn case(seed: u64) -> Case {
    let mut prng = Prng::new(seed);
    let plan = plans::any(&mut prng);
    let mut case = Case::of(seed, &plan.rows, plan.order, spare(&mut prng), &mut prng);
    if prng.chance(DAMAGED) {
        damage::damage(&mut case, &damage::FOR_JUDGING, &mut prng);
    }
    case
}

impl Case {
    /// These rows in this order, with a lent list of `spare` places more than there are rows.
    fn of(seed: u64, rows: &[Row], order: Vec<u32>, spare: usize, prng: &mut Prng) -> Case {
        let figures = lent(rows.len() + spare, prng);
        Case { seed, table: rows.concat(), order, figures }
    }

    /// One boundary row, judged alone; its lent list has one place to spare.
    pub fn of_one_row(row: Row) -> Case {
        Case::of(0, &[row], vec![0], 1, &mut Prng::new(0))
    }

    /// The same case with each deadline cut to what is just enough for these figures, and that
    /// of `late_row`, if there is one, to one bit time less.
    ///
    /// For a case that passes with these figures: the new one passes with the same ones, except
    /// that the band of `late_row` is late.
    pub fn tightened(&self, figures: &[u32], late_row: Option<usize>) -> Case {
        let mut tight = self.clone();
        tighten(&mut tight.table, figures, late_row);
        tight
    }
}

/// Cuts each deadline to what is just enough for these figures, and that of `late_row` to one bit
/// time less.
fn tighten(table: &mut [u32], figures: &[u32], late_row: Option<usize>) {
    for (at, (row, figure)) in table.chunks_exact_mut(6).zip(figures).enumerate() {
        row[4] = row[5] + figure - u32::from(late_row == Some(at));
    }
}

/// How many places a lent list has to spare: none, a few, or many.
fn spare(prng: &mut Prng) -> usize {
    match prng.below(10) {
        0..=3 => 0,
        4..=7 => prng.below(8),
        _ => prng.below(100),
    }
}

/// A lent list of so many words, each of them made up and above any figure or row number.
fn lent(words: usize, prng: &mut Prng) -> Vec<u32> {
    (0..words).map(|_| prng.word() as u32 | CANARY).collect()
}

impl fmt::Display for Case {
    fn fmt(&self, f: &mut fmt::Formatter) -> fmt::Result {
        show_table(f, self.seed, &self.table)?;
        writeln!(f, "an order of {} entries: {:?}", self.order.len(), self.order)?;
        show_lent(f, &self.figures)
    }
}

fn show_table(f: &mut fmt::Formatter, seed: u64, table: &[u32]) -> fmt::Result {
    writeln!(f, "seed {seed}, a table of {} words:", table.len())?;
    table.chunks(6).enumerate().try_for_each(|(row, words)| writeln!(f, "  row {row}: {words:?}"))
}

fn show_lent(f: &mut fmt::Formatter, lent: &[u32]) -> fmt::Result {
    write!(f, "a lent list of {} words: {lent:08x?}", lent.len())
}
