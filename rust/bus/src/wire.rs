//! What the bus does with a run, bit time by bit time.

use std::collections::VecDeque;

use crate::{Bus, Frame};

/// Frames of a run, by their places in it, that wait in one queue: the oldest in front.
type Queue = VecDeque<usize>;

impl Bus {
    /// For each frame of a legal run the time at which it is wholly sent, if the run lasts so long.
    ///
    /// Frames that are queued in the same bit time enter their queues as the run lists them.
    pub fn sent(&self, run: &[Frame], end: u32) -> Vec<Option<u32>> {
        let mut sent = vec![None; run.len()];
        let mut queues = vec![Queue::new(); self.rows.len()];
        let mut waiting = 0;
        let mut coming = run.iter().enumerate().peekable();
        let mut free_from = 0;
        for now in 0..end {
            while let Some((at, frame)) = coming.next_if(|(_, frame)| frame.queued == now) {
                queues[self.rows[frame.row].band].push_back(at);
                waiting += 1;
            }
            // Mostly a frame holds the bus or none waits, and there is nothing to look for.
            if now < free_from || waiting == 0 {
                continue;
            }
            if let Some(at) = self.take_highest_head(&mut queues, run) {
                waiting -= 1;
                free_from = now + run[at].length;
                sent[at] = Some(free_from).filter(|&over| over <= end);
            }
        }
        sent
    }

    /// Of the heads of all queues the one highest in the order, which leaves its queue.
    fn take_highest_head(&self, queues: &mut [Queue], run: &[Frame]) -> Option<usize> {
        let place = |queue: &Queue| queue.front().map(|&head| self.rows[run[head].row].place);
        queues
            .iter_mut()
            .filter(|queue| !queue.is_empty())
            .min_by_key(|queue| place(queue))?
            .pop_front()
    }
}
