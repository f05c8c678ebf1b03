//! Families of 64-row tables for measuring how long it takes to find an order.
//!
//! The rows that are allowed the least time come first, as a person may list them: at a low place
//! many bands are then tried before one passes.

use crate::fields::{allowed, Row, MAX_PERIOD};
use crate::plans::vehicle_row;
use crate::prng::Prng;
use crate::speed::{nearly_full, overfull, priority, Family, Maker, ROWS};
use crate::style::{Length, Style};
use crate::{Case, FindCase};

/// The least length of a row on a vehicle's bus.
const SHORTEST: u32 = 55;

/// All families for finding, with so many tables each.
pub fn find_families(tables: u64) -> Vec<Family<FindCase>> {
    let kinds: [(&'static str, Maker); 5] = [
        ("easy", easy),
        ("typical", typical),
        ("fifo-mixed", fifo_mixed),
        ("infeasible", infeasible),
        ("nearly full", nearly_full),
    ];
    kinds.map(|(name, rows)| Family::new(name, tables, |seed| case(seed, rows))).into()
}

fn case(seed: u64, rows: Maker) -> FindCase {
    let mut prng = Prng::new(seed);
    let mut rows = rows(&mut prng);
    rows.sort_by_key(allowed);
    FindCase::from(Case::of(seed, &rows, Vec::new(), 0, &mut prng))
}

/// A light load: periods so long that no row above counts twice within a deadline.
fn easy(prng: &mut Prng) -> Vec<Row> {
    let style = priority(100, 0);
    let row = |prng: &mut Prng| {
        let mut row = style.row(Length::frame(prng), MAX_PERIOD, prng);
        row[4] = prng.of_any_magnitude(2_000, 200_000);
        row
    };
    (0..ROWS).map(|_| row(prng)).collect()
}

/// What a vehicle's bus carries, with deadlines of a tenth of the period or more.
fn typical(prng: &mut Prng) -> Vec<Row> {
    let style = priority(10, 5);
    (0..ROWS).map(|_| vehicle_row(&style, prng)).collect()
}

/// The same with half of the rows in eight FIFOs, and deadlines of a fifth of the period or more.
fn fifo_mixed(prng: &mut Prng) -> Vec<Row> {
    let style = Style { fifos: (1..=8).collect(), in_fifo: 50, ..priority(20, 5) };
    (0..ROWS).map(|_| vehicle_row(&style, prng)).collect()
}

/// More than the bus can carry, so that no band passes at the lowest place; or what a vehicle's
/// bus carries, with some rows in such a hurry that they cannot all pass at the highest places:
/// their lengths come to more than the time that any of them is allowed.
fn infeasible(prng: &mut Prng) -> Vec<Row> {
    if prng.chance(25) {
        return overfull(prng);
    }
    let mut rows = typical(prng);
    let hurried = prng.between(7, 30);
    for row in &mut rows[..hurried as usize] {
        (row[4], row[5]) = (prng.between(hurried * SHORTEST / 2, hurried * SHORTEST), 0);
    }
    rows
}
