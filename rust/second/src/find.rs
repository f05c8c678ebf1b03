//! Finding an order: the lowest place is filled first, by the first band that passes there.

use crate::row::{Queue, Row, LAST_FIFO};
use crate::sums::{Band, Start};
use crate::{number, Reply};

/// The order that the rule gives, and how many bands were tried for it; or refusal 8.
pub(crate) fn find_order<S: Start>(rows: &[Row]) -> Result<(Vec<u32>, usize), Reply> {
    let mut order = band_by_band(rows);
    let mut unplaced: Vec<Row> = order.iter().map(|&row| rows[row as usize]).collect();
    let mut bands: Vec<Band> = unplaced.chunk_by(Row::same_band).map(Band::of).collect();
    let mut lengths: u32 = bands.iter().map(|band| band.sum).sum();
    let (mut tried, mut longest_below) = (0, 0);
    while !bands.is_empty() {
        let passing = first_passing::<S>(&bands, &unplaced, lengths, longest_below);
        let Some((at, start)) = passing else {
            let tried = number(tried + bands.len());
            return Err(Reply::NoOrder { unplaced: number(bands.len()), tried });
        };
        tried += at + 1;
        let band = bands.remove(at);
        lengths -= band.sum;
        longest_below = longest_below.max(band.max);
        // Behind what is left the order grows from the lowest place up.
        order[start..unplaced.len()].rotate_left(band.rows);
        unplaced.drain(start..start + band.rows);
    }
    Ok((order, tried))
}

/// The first band that passes with all others above it, and where its rows start among theirs;
/// all their lengths together come to `lengths`.
fn first_passing<S: Start>(
    bands: &[Band],
    rows: &[Row],
    lengths: u32,
    longest_below: u32,
) -> Option<(usize, usize)> {
    let mut start = 0;
    for (at, band) in bands.iter().enumerate() {
        let end = start + band.rows;
        let above = rows[..start].iter().chain(&rows[end..]);
        if band.figure::<S>(above, lengths - band.sum, longest_below).is_some() {
            return Some((at, start));
        }
        start = end;
    }
    None
}

/// The row numbers band by band: the bands in rising order of their first row, the rows of each
/// in rising row number.
fn band_by_band(rows: &[Row]) -> Vec<u32> {
    let mut first_of_fifo = [None; LAST_FIFO as usize + 1];
    let mut first_and_own: Vec<(u32, u32)> = rows
        .iter()
        .zip(0..)
        .map(|(row, own)| match row.queue {
            Queue::Priority => (own, own),
            Queue::Fifo(fifo) => (*first_of_fifo[fifo as usize].get_or_insert(own), own),
        })
        .collect();
    first_and_own.sort_unstable();
    first_and_own.into_iter().map(|(_, own)| own).collect()
}
