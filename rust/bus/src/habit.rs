//! How a row uses its licence in one run: how long its frames wait and are, how far apart they
//! come.

use tables::Prng;

use crate::{Bus, Frame, Row};

/// How a row uses its licence.
#[derive(Clone, Copy)]
pub(crate) struct Habit {
    wait: Use,
    gap: Use,
    length: Use,
    /// Only the first frame waits, so that the next one comes as soon after it as it may.
    then_at_once: bool,
}

/// How much is taken of what is allowed.
#[derive(Clone, Copy)]
enum Use {
    Least,
    Most,
    AlmostMost,
    Any,
}

impl Use {
    fn any(prng: &mut Prng) -> Use {
        prng.pick(&[Use::Least, Use::Most, Use::AlmostMost, Use::Any])
    }

    /// So much, of what may be `least` to `most`.
    fn of(self, least: u32, most: u32, prng: &mut Prng) -> u32 {
        match self {
            Use::Least => least,
            Use::Most => most,
            Use::AlmostMost => prng.between(least.max(most.saturating_sub(2)), most),
            Use::Any => prng.between(least, most),
        }
    }
}

impl Habit {
    /// As much as is allowed, as soon and as fast as is allowed.
    pub(crate) const WORST: Habit =
        Habit { wait: Use::Most, gap: Use::Least, length: Use::Most, then_at_once: true };

    /// Any habit. Half the time the period is kept exactly.
    pub(crate) fn any(prng: &mut Prng) -> Habit {
        let gap = if prng.chance(50) { Use::Least } else { Use::any(prng) };
        let (wait, length) = (Use::any(prng), Use::any(prng));
        Habit { wait, gap, length, then_at_once: prng.chance(25) }
    }

    /// The frames of this row from the one queued at `first` to the run's end.
    pub(crate) fn frames(
        self,
        bus: &Bus,
        row: usize,
        first: u32,
        end: u32,
        prng: &mut Prng,
    ) -> Vec<Frame> {
        let Row { c, t, j, .. } = bus.rows[row];
        let mut frames = Vec::new();
        let mut wait = self.wait.of(0, j, prng);
        let mut queued = first;
        while queued < end {
            frames.push(Frame { row, queued, wait, length: self.length.of(1, c, prng) });
            let gap = t + self.gap.of(0, t, prng);
            let next = if self.then_at_once { 0 } else { self.wait.of(0, j, prng) };
            // J is no more than T, so the next event is not before time 0 even if this one was.
            queued = queued + gap - wait + next;
            wait = next;
        }
        frames
    }
}
