//! One row of the licence table: six words, read once into a record.

use std::ops::RangeInclusive;

/// Words in a row.
pub(crate) const FIELDS: usize = 6;
/// The greatest number of a FIFO.
pub(crate) const LAST_FIFO: u32 = 64;

const BITS: RangeInclusive<u32> = 1..=4_096;
const BYTES: RangeInclusive<u32> = 0..=8;
const PERIODS: RangeInclusive<u32> = 1..=1_000_000;

/// Where a row's frames wait.
#[derive(Debug, Clone, Copy, PartialEq, Eq)]
pub(crate) enum Queue {
    Priority,
    Fifo(u32),
}

/// A row's length: in bit times, or in bytes of a frame with an 11-bit or a 29-bit identifier.
enum Length {
    Bits(u32),
    Standard(u32),
    Extended(u32),
}

/// A good row, with what the sums ask of it: C, T, J, and E = D - J.
#[derive(Debug, Clone, Copy)]
pub(crate) struct Row {
    pub(crate) queue: Queue,
    pub(crate) c: u32,
    pub(crate) t: u32,
    pub(crate) j: u32,
    pub(crate) e: u32,
}

impl Queue {
    fn read(word: u32) -> Option<Queue> {
        match word {
            0 => Some(Queue::Priority),
            1..=LAST_FIFO => Some(Queue::Fifo(word)),
            _ => None,
        }
    }
}

impl Length {
    /// The length, or the number of the bad field: 2 (form) or 3 (size).
    fn read(form: u32, size: u32) -> Result<Length, u32> {
        let (sizes, length): (_, fn(u32) -> Length) = match form {
            0 => (BITS, Length::Bits),
            1 => (BYTES, Length::Standard),
            2 => (BYTES, Length::Extended),
            _ => return Err(2),
        };
        good(size, sizes, 3).map(length)
    }

    /// C, the longest time on the bus.
    fn bit_times(self) -> u32 {
        match self {
            Length::Bits(c) => c,
            Length::Standard(bytes) => stuffed(34 + 8 * bytes),
            Length::Extended(bytes) => stuffed(54 + 8 * bytes),
        }
    }
}

impl Row {
    /// Stands in an array where no row has been read yet.
    pub(crate) const NONE: Row = Row { queue: Queue::Priority, c: 0, t: 1, j: 0, e: 0 };

    /// The row, or the number of its lowest bad field.
    pub(crate) fn read(words: &[u32; FIELDS]) -> Result<Row, u32> {
        let [queue, form, size, t, d, j] = *words;
        let queue = Queue::read(queue).ok_or(1u32)?;
        let c = Length::read(form, size)?.bit_times();
        let t = good(t, PERIODS, 4)?;
        let d = good(d, 1..=t, 5)?;
        let j = good(j, 0..=d, 6)?;
        Ok(Row { queue, c, t, j, e: d - j })
    }

    /// Neighbours in an order are of one band exactly when they wait in the same FIFO.
    pub(crate) fn same_band(&self, other: &Row) -> bool {
        self.queue != Queue::Priority && self.queue == other.queue
    }
}

/// The word, if it is allowed, or else the number of its field.
fn good(word: u32, allowed: RangeInclusive<u32>, field: u32) -> Result<u32, u32> {
    if allowed.contains(&word) {
        Ok(word)
    } else {
        Err(field)
    }
}

/// Bits of a frame of which `stuffable` may be stuffed: at worst after the first five and then
/// after every four, since a stuff bit itself counts toward the next run of equal bits.
fn stuffed(stuffable: u32) -> u32 {
    stuffable + 13 + (stuffable - 1) / 4
}
