//! Good tables with good orders, from a light load to an over-full bus.

use crate::extremes;
use crate::fields::{Row, MAX_BITS};
use crate::orders;
use crate::prng::Prng;
use crate::style::{Length, Style};

/// A good table and an order of it that keeps the queues together.
pub(crate) struct Plan {
    pub(crate) rows: Vec<Row>,
    pub(crate) order: Vec<u32>,
}

/// A plan of any kind.
///
/// Small numbers come most, for there one bit time more or less tells. A plan in which the rows
/// above fill the bus, where a search is long, is rare.
pub(crate) fn any(prng: &mut Prng) -> Plan {
    let style = Style::any(prng);
    let rows = match prng.below(100) {
        0..=34 => loaded(&style, 10, prng, |prng| Length::bits(1, 12, prng)),
        35..=54 => loaded(&style, 64, prng, |prng| Length::either(1, 160, prng)),
        55..=64 => loaded(&style, 64, prng, |prng| Length::either(1, MAX_BITS, prng)),
        65..=79 => (0..prng.between(1, 64)).map(|_| vehicle_row(&style, prng)).collect(),
        80..=94 => extremes::at_the_edges(prng),
        95..=97 => return extremes::wrapping(prng),
        98 => return extremes::doubling(prng),
        _ => return extremes::saturated(prng),
    };
    let order = orders::any(&rows, prng);
    Plan { rows, order }
}

/// Up to `most` rows of such lengths, for a load of 5 to 150 percent.
pub(crate) fn loaded(
    style: &Style,
    most: u32,
    prng: &mut Prng,
    length: fn(&mut Prng) -> Length,
) -> Vec<Row> {
    let n = prng.between(1, most);
    let load = prng.between(5, 150);
    let mut row = || {
        let length = length(prng);
        share(style, length, n, load, prng)
    };
    (0..n).map(|_| row()).collect()
}

/// One of n rows that together load the bus to about so many percent.
pub(crate) fn share(style: &Style, length: Length, n: u32, load: u32, prng: &mut Prng) -> Row {
    let period = length.about * n * 100 / load;
    let period = prng.between(period * 2 / 3, period * 3 / 2);
    style.row(length, period, prng)
}

/// A row as a vehicle has them: a length of 55 to 160, a period of 5,000 to 500,000.
pub(crate) fn vehicle_row(style: &Style, prng: &mut Prng) -> Row {
    let length = Length::either(55, 160, prng);
    let period = prng.of_any_magnitude(5_000, 500_000);
    style.row(length, period, prng)
}
