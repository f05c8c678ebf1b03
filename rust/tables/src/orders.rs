//! Orders that keep each FIFO queue together.

use crate::fields::{allowed, Row};
use crate::prng::Prng;

/// An order of these rows that keeps the queues together: half the time the bands with the
/// least time allowed come first, else it is any order.
pub(crate) fn any(rows: &[Row], prng: &mut Prng) -> Vec<u32> {
    let mut bands = bands_of(rows);
    for band in &mut bands {
        // A judged order may have the rows of a FIFO in any order.
        if prng.chance(50) {
            prng.shuffle(band);
        }
    }
    match prng.below(10) {
        0..=4 => bands.sort_by_key(|band| least_allowed(rows, band)),
        5..=7 => prng.shuffle(&mut bands),
        _ => {}
    }
    bands.concat()
}

/// An order of these rows that puts the bands with the least time allowed first.
pub(crate) fn by_deadline(rows: &[Row]) -> Vec<u32> {
    let mut bands = bands_of(rows);
    bands.sort_by_key(|band| least_allowed(rows, band));
    bands.concat()
}

/// The rows of each band of a good table, in rising row number; the bands in rising order of their
/// first row.
pub fn bands(table: &[u32]) -> Vec<Vec<u32>> {
    bands_of(table.as_chunks().0)
}

/// Every order of these bands. They come in the order in which they are counted out from the
/// lowest place up, each place running through the bands that are left as they are listed.
pub fn every_order(bands: &[Vec<u32>]) -> Vec<Vec<u32>> {
    if bands.is_empty() {
        return vec![Vec::new()];
    }
    let with_lowest = |at: usize| {
        let mut above = bands.to_vec();
        let lowest = above.remove(at);
        every_order(&above).into_iter().map(move |above| [&above[..], &lowest].concat())
    };
    (0..bands.len()).flat_map(with_lowest).collect()
}

/// The bands of these rows.
pub(crate) fn bands_of(rows: &[Row]) -> Vec<Vec<u32>> {
    let mut bands: Vec<Vec<u32>> = Vec::new();
    for (at, row) in rows.iter().enumerate() {
        let fellow = |band: &&mut Vec<u32>| row[0] != 0 && rows[band[0] as usize][0] == row[0];
        match bands.iter_mut().find(fellow) {
            Some(band) => band.push(at as u32),
            None => bands.push(vec![at as u32]),
        }
    }
    bands
}

/// The least time allowed in a band.
fn least_allowed(rows: &[Row], band: &[u32]) -> Option<u32> {
    band.iter().map(|&row| allowed(&rows[row as usize])).min()
}
