//! Whether a run keeps to the licences. This looks at the frames alone, however they were made.

use crate::{Bus, Frame};

/// How a run breaks a licence, and the place in the run of the frame that does.
#[derive(Debug, Clone, Copy, PartialEq, Eq)]
pub enum Breach {
    /// The table has no such row.
    NoSuchRow(usize),
    /// Listed after a frame that is queued later.
    OutOfTurn(usize),
    /// Queued more than J after its event.
    LongWait(usize),
    /// Not 1 to C bit times long.
    BadLength(usize),
    /// Its event is less than T after the one before of its row.
    SoonEvent(usize),
}

impl Bus {
    /// A breach in the run, if it is not legal.
    pub fn breach(&self, run: &[Frame]) -> Option<Breach> {
        self.breach_of_one(run).or_else(|| self.soon_event(run))
    }

    /// The first frame that is bad in itself, or where it stands.
    fn breach_of_one(&self, run: &[Frame]) -> Option<Breach> {
        let mut latest = 0;
        for (at, frame) in run.iter().enumerate() {
            let Some(row) = self.rows.get(frame.row) else { return Some(Breach::NoSuchRow(at)) };
            if frame.queued < latest {
                return Some(Breach::OutOfTurn(at));
            }
            if frame.wait > row.j {
                return Some(Breach::LongWait(at));
            }
            if !(1..=row.c).contains(&frame.length) {
                return Some(Breach::BadLength(at));
            }
            latest = frame.queued;
        }
        None
    }

    /// A frame whose event comes too soon after another of its row.
    ///
    /// Where J is T, two frames of a row may be queued in one bit time and be listed either way
    /// round: so it is events that are put in order here.
    fn soon_event(&self, run: &[Frame]) -> Option<Breach> {
        let mut events: Vec<(usize, i64, usize)> =
            run.iter().enumerate().map(|(at, frame)| (frame.row, frame.event(), at)).collect();
        events.sort_unstable();
        let soon = |pair: &&[(usize, i64, usize)]| {
            let [(row, event, _), (next_row, next, _)] = [pair[0], pair[1]];
            row == next_row && next - event < i64::from(self.rows[row].t)
        };
        events.windows(2).find(soon).map(|pair| Breach::SoonEvent(pair[1].2))
    }
}
