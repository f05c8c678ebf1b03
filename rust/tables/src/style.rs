//! How the rows of one table are made: their queues, deadlines and jitters have a style in common.

use crate::fields::{Row, LAST_FIFO, MAX_BYTES, MAX_PERIOD};
use crate::prng::Prng;

/// What the rows of one table have in common.
pub(crate) struct Style {
    /// FIFOs that rows may be in.
    pub(crate) fifos: Vec<u32>,
    /// Of a hundred rows, how many are in one of them.
    pub(crate) in_fifo: u32,
    /// The least deadline, in hundredths of the period.
    pub(crate) deadline: u32,
    /// The greatest jitter, in hundredths of the deadline.
    pub(crate) jitter: u32,
}

/// A row's length, and about how many bit times that makes.
pub(crate) struct Length {
    form: u32,
    size: u32,
    pub(crate) about: u32,
}

impl Style {
    /// Any style: no FIFO, a few, one for all rows, or many.
    pub(crate) fn any(prng: &mut Prng) -> Style {
        let (fifos, in_fifo) = match prng.below(20) {
            0..=6 => (0, 0),
            7..=16 => (prng.between(1, 3), prng.between(20, 80)),
            17 => (1, 100),
            _ => (LAST_FIFO, prng.between(20, 100)),
        };
        Style {
            fifos: (0..fifos).map(|_| prng.between(1, LAST_FIFO)).collect(),
            in_fifo,
            deadline: prng.pick(&[100, 100, 50, 10]),
            jitter: prng.pick(&[0, 5, 5, 25, 100]),
        }
    }

    /// A row of this style with this length, and this period as far as it is allowed.
    pub(crate) fn row(&self, length: Length, period: u32, prng: &mut Prng) -> Row {
        let t = period.clamp(1, MAX_PERIOD);
        let d = prng.between((t * self.deadline / 100).max(1), t);
        let j = prng.between(0, d * self.jitter / 100);
        let queue = if prng.chance(self.in_fifo) { prng.pick(&self.fifos) } else { 0 };
        [queue, length.form, length.size, t, d, j]
    }
}

impl Length {
    /// So many bit times, in form 0.
    pub(crate) fn bits(least: u32, most: u32, prng: &mut Prng) -> Length {
        let size = prng.between(least, most);
        Length { form: 0, size, about: size }
    }

    /// A frame of either format.
    pub(crate) fn frame(prng: &mut Prng) -> Length {
        let (form, size) = (prng.between(1, 2), prng.between(0, MAX_BYTES));
        Length { form, size, about: 67 + 10 * size }
    }

    /// Bit times or a frame.
    pub(crate) fn either(least: u32, most: u32, prng: &mut Prng) -> Length {
        if prng.chance(50) {
            Length::bits(least, most, prng)
        } else {
            Length::frame(prng)
        }
    }
}
