//! Families of 64-row tables for measuring how long a judgement takes.

use crate::fields::{Row, MAX_PERIOD};
use crate::orders;
use crate::plans::{share, vehicle_row};
use crate::prng::Prng;
use crate::style::{Length, Style};
use crate::Case;

pub(crate) const ROWS: u32 = 64;

/// Makes the rows of one table.
pub(crate) type Maker = fn(&mut Prng) -> Vec<Row>;

/// Cases of one kind, each with just enough room.
pub struct Family<C> {
    /// What kind they are of.
    pub name: &'static str,
    /// The cases.
    pub cases: Vec<C>,
}

/// All families for judging, with so many tables each, and a good order of each table.
pub fn families(tables: u64) -> Vec<Family<Case>> {
    let kinds: [(&'static str, Maker); 5] = [
        ("easy", easy),
        ("typical", typical),
        ("fifo-mixed", fifo_mixed),
        ("overfull", overfull),
        ("nearly full", nearly_full),
    ];
    kinds.map(|(name, rows)| Family::new(name, tables, |seed| case(seed, rows))).into()
}

impl<C> Family<C> {
    /// So many cases, each made from its seed.
    pub(crate) fn new(name: &'static str, tables: u64, case: impl Fn(u64) -> C) -> Family<C> {
        Family { name, cases: (0..tables).map(case).collect() }
    }
}

fn case(seed: u64, rows: Maker) -> Case {
    let mut prng = Prng::new(seed);
    let rows = rows(&mut prng);
    Case::of(seed, &rows, orders::by_deadline(&rows), 0, &mut prng)
}

/// Priority rows only, with this least deadline and greatest jitter in hundredths.
pub(crate) fn priority(deadline: u32, jitter: u32) -> Style {
    Style { fifos: Vec::new(), in_fifo: 0, deadline, jitter }
}

/// A light load: long periods, nothing that waits for long.
fn easy(prng: &mut Prng) -> Vec<Row> {
    let style = priority(100, 0);
    let period = |prng: &mut Prng| prng.between(200_000, MAX_PERIOD);
    (0..ROWS).map(|_| style.row(Length::frame(prng), period(prng), prng)).collect()
}

/// What a vehicle's bus carries.
fn typical(prng: &mut Prng) -> Vec<Row> {
    let style = priority(80, 5);
    (0..ROWS).map(|_| vehicle_row(&style, prng)).collect()
}

/// The same, with half of the rows in eight FIFOs.
fn fifo_mixed(prng: &mut Prng) -> Vec<Row> {
    let style = Style { fifos: (1..=8).collect(), in_fifo: 50, ..priority(80, 5) };
    (0..ROWS).map(|_| vehicle_row(&style, prng)).collect()
}

/// Half as much again as the bus can carry.
pub(crate) fn overfull(prng: &mut Prng) -> Vec<Row> {
    let style = priority(80, 5);
    (0..ROWS).map(|_| share(&style, Length::either(55, 160, prng), ROWS, 150, prng)).collect()
}

/// As on a vehicle's bus, with periods so much shorter that most tables just pass and some do not.
pub(crate) fn nearly_full(prng: &mut Prng) -> Vec<Row> {
    let style = priority(100, 0);
    let period = |prng: &mut Prng| prng.of_any_magnitude(2_000, 200_000);
    (0..ROWS).map(|_| style.row(Length::either(55, 160, prng), period(prng), prng)).collect()
}
