//! Good tables that go to the limits: fields at their ends, sums past 32 bits, a bus that the
//! rows above fill to the last bit time, deadlines that are just enough.

use crate::fields::{Row, LAST_FIFO, MAX_BITS, MAX_BYTES, MAX_PERIOD};
use crate::orders;
use crate::plans::Plan;
use crate::prng::Prng;
use crate::style::{Length, Style};

/// A few rows whose fields are at an end of what is allowed, or next to it.
pub(crate) fn at_the_edges(prng: &mut Prng) -> Vec<Row> {
    (0..prng.between(1, 5)).map(|_| edge_row(prng)).collect()
}

fn edge_row(prng: &mut Prng) -> Row {
    let queue = prng.pick(&[0, 0, 1, LAST_FIFO]);
    let form = prng.between(0, 2);
    let size = match form {
        0 => prng.pick(&[1, 2, MAX_BITS - 1, MAX_BITS]),
        _ => prng.pick(&[0, 1, MAX_BYTES - 1, MAX_BYTES]),
    };
    let t = prng.pick(&[1, 2, 100_000, MAX_PERIOD - 1, MAX_PERIOD, MAX_PERIOD]);
    let d = prng.pick(&[1, t / 2, t - 1, t, t, t]).max(1);
    let j = prng.pick(&[0, 0, 1, d / 2, d - 1, d]);
    [queue, form, size, t, d, j]
}

/// A FIFO below rows of C 4,096 and T 1, so many and such that the true sum is a multiple of
/// 2^32: the FIFO is late, but a sum kept in 32 bits comes to 0 and would let it pass.
///
/// With k rows above and f rows of about 4,096 in the FIFO, k times f is a multiple of 256; the
/// last two rows of the FIFO are so much shorter that w + J + 1 is f times 4,096 at the start.
pub(crate) fn wrapping(prng: &mut Prng) -> Plan {
    let (k, f) = prng.pick(&[(32, 8), (32, 24), (16, 16), (16, 48), (8, 32), (48, 16)]);
    let j = prng.between(0, 1);
    let short = MAX_BITS - 1 - j;
    let fifo = |size: u32| [7, 0, size, MAX_PERIOD, MAX_PERIOD, 0];
    let mut rows = vec![[0, 0, MAX_BITS, 1, 1, j]; k];
    rows.extend(vec![fifo(MAX_BITS); f - 2]);
    rows.extend([fifo(short), fifo(short)]);
    if prng.chance(50) {
        let at = prng.below(rows.len());
        rows[at][2] = prng.between(1, MAX_BITS);
    }
    let order = (0..rows.len() as u32).collect();
    Plan { rows, order }
}

/// One or two rows below rows that fill the bus exactly: a search there climbs to the deadline.
pub(crate) fn saturated(prng: &mut Prng) -> Plan {
    let fillers = prng.between(1, 4);
    let c = prng.between(1, 20);
    let filler = [0, 0, c, fillers * c, fillers * c, prng.between(0, 1)];
    let mut rows = vec![filler; fillers as usize];
    for _ in 0..prng.between(1, 2) {
        let d = prng.of_any_magnitude(100, MAX_PERIOD);
        rows.push([0, 0, prng.between(1, 50), MAX_PERIOD, d, 0]);
    }
    let order = (0..rows.len() as u32).collect();
    Plan { rows, order }
}

/// Rows of C 1 whose periods double: each passes to the bit time at its period, after a search
/// of many steps; or one has a bit time less and is late.
pub(crate) fn doubling(prng: &mut Prng) -> Plan {
    let most = prng.between(3, 16);
    let row = |power: u32| [0, 0, 1, 1 << power, 1 << power, 0];
    let mut rows: Vec<Row> = (1..=most).map(row).collect();
    if prng.chance(30) {
        let at = prng.below(rows.len());
        rows[at][4] -= 1;
    }
    let order = (0..most).collect();
    Plan { rows, order }
}

/// Rows that are allowed just the time they take in one made-up order, or a little more; half the
/// time one row is allowed a bit time less, and then there may be no order.
///
/// The periods are so long that no row above counts twice: the figure of a band is the longest C
/// in it and below, and then the C of every row in it and above.
pub(crate) fn just_enough(style: &Style, prng: &mut Prng) -> Vec<Row> {
    let n = prng.between(1, 64);
    let longest = prng.pick(&[5, 160]);
    let row = |prng: &mut Prng| style.row(Length::bits(1, longest, prng), MAX_PERIOD, prng);
    let mut rows: Vec<Row> = (0..n).map(|_| row(prng)).collect();
    let mut order = orders::bands_of(&rows);
    prng.shuffle(&mut order);
    let more = prng.pick(&[0, 0, 1, 200]);
    let short = prng.between(0, 2 * n - 1);
    let mut taken = 0;
    for place in 0..order.len() {
        let c = |row: &u32| rows[*row as usize][2];
        let waited = order[place..].iter().flatten().map(c).max().unwrap_or(0);
        taken += order[place].iter().map(c).sum::<u32>();
        for &row in &order[place] {
            let j = prng.between(0, 1_000);
            let e = waited + taken + prng.between(0, more) - u32::from(row == short);
            (rows[row as usize][4], rows[row as usize][5]) = (e + j, j);
        }
    }
    rows
}
