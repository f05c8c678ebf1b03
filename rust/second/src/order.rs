//! What is asked of an order before it is judged.

use std::mem::replace;

use crate::row::{Queue, Row, LAST_FIFO};
use crate::MAX_ROWS;

/// Refusal 6: the first place of a whole-length order that is out of range or repeats a row.
pub(crate) fn first_bad_entry(order: &[u32]) -> Option<usize> {
    let mut seen = [false; MAX_ROWS];
    let seen = &mut seen[..order.len()];
    order.iter().position(|&row| match seen.get_mut(row as usize) {
        None => true,
        Some(seen) => replace(seen, true),
    })
}

/// Refusal 7: the first place that resumes a FIFO already left.
pub(crate) fn first_resumed(placed: &[Row]) -> Option<usize> {
    let mut met = [false; LAST_FIFO as usize + 1];
    let mut previous = Queue::Priority;
    placed.iter().position(|row| {
        let entered = replace(&mut previous, row.queue) != row.queue;
        match row.queue {
            Queue::Fifo(fifo) if entered => replace(&mut met[fifo as usize], true),
            _ => false,
        }
    })
}
