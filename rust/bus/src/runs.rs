//! Makers of legal runs: any ones, and ones as bad as they can be for one row.

use tables::Prng;

use crate::habit::Habit;
use crate::{Bus, Frame};

/// How a run is shaped.
#[derive(Debug, Clone, Copy, PartialEq, Eq)]
pub enum Shape {
    /// Every row does as it likes.
    Random,
    /// The longest frame below the watched row takes the bus, and one bit time later all frames
    /// above it and of its own band are queued, its own last.
    BehindLower,
    /// The same, but the frame that takes the bus is of the watched row's own band; half the time
    /// that one was itself delayed by the longest frame below.
    BehindOwn,
}

/// A legal run of this shape, in which frames are queued before `end`; the watched row has some.
pub fn run(bus: &Bus, shape: Shape, watched: usize, end: u32, prng: &mut Prng) -> Vec<Frame> {
    match shape {
        Shape::Random => random(bus, watched, end, prng),
        Shape::BehindLower => {
            let lower = blocker(bus, bus.below(watched), prng);
            behind(bus, watched, lower.as_slice(), end, prng)
        }
        Shape::BehindOwn => {
            let lower = blocker(bus, bus.below(watched), prng).filter(|_| prng.chance(50));
            let own = own_blocker(bus, watched, prng);
            let blockers: Vec<usize> = lower.into_iter().chain(own).collect();
            behind(bus, watched, &blockers, end, prng)
        }
    }
}

/// Every row starts when it likes, or all start at once. Some are silent, but never the watched
/// one.
fn random(bus: &Bus, watched: usize, end: u32, prng: &mut Prng) -> Vec<Frame> {
    let together = prng.chance(25);
    let common = Habit::any(prng);
    let mut run = Vec::new();
    for row in 0..bus.rows.len() {
        if row != watched && prng.chance(10) {
            continue;
        }
        let first = if together { 0 } else { some_time(bus, row, end, prng) };
        let habit = if prng.chance(30) { Habit::any(prng) } else { common };
        run.extend(habit.frames(bus, row, first, end, prng));
    }
    prng.shuffle(&mut run);
    in_turn(run)
}

/// A row whose frame is to take the bus first: mostly the longest of these, if there are any.
fn blocker(bus: &Bus, mut rows: Vec<usize>, prng: &mut Prng) -> Option<usize> {
    prng.shuffle(&mut rows);
    if prng.chance(10) {
        return rows.pop();
    }
    rows.into_iter().max_by_key(|&row| bus.rows[row].c)
}

/// The same of the watched row's band, and mostly not of the watched row itself.
fn own_blocker(bus: &Bus, watched: usize, prng: &mut Prng) -> Option<usize> {
    let mut band = bus.band(watched);
    if band.len() > 1 && prng.chance(75) {
        band.retain(|&row| row != watched);
    }
    blocker(bus, band, prng)
}

/// The frames of the blockers take the bus, one after the other. One bit time after the last has
/// started all that can delay the watched row is queued at once, and its own frame behind its
/// band. Half the time some rows do otherwise.
fn behind(bus: &Bus, watched: usize, blockers: &[usize], end: u32, prng: &mut Prng) -> Vec<Frame> {
    let varied = if prng.chance(50) { prng.pick(&[2, 20, 50]) } else { 0 };
    let first = prng.pick(&[0, 0, 1, 40]);
    let mut run = Vec::new();
    for (&row, queued) in blockers.iter().zip(first..) {
        run.extend(Habit::WORST.frames(bus, row, queued, end, prng));
    }
    let before_last = blockers.iter().rev().skip(1);
    let start = first + before_last.map(|&row| bus.rows[row].c).sum::<u32>() + 1;
    for row in not_below(bus, watched).into_iter().filter(|row| !blockers.contains(row)) {
        let queued = start + if prng.chance(varied) { prng.between(0, 3) } else { 0 };
        let habit = if prng.chance(varied) { Habit::any(prng) } else { Habit::WORST };
        run.extend(habit.frames(bus, row, queued, end, prng));
    }
    // Of those below only one can delay the watched frame; the others come when they like.
    for row in bus.below(watched).into_iter().filter(|row| !blockers.contains(row)) {
        let queued = start + some_time(bus, row, end, prng);
        run.extend(Habit::any(prng).frames(bus, row, queued, end, prng));
    }
    in_turn(run)
}

/// The rows above the watched one and of its band, itself last.
fn not_below(bus: &Bus, watched: usize) -> Vec<usize> {
    let mut rows = [bus.above(watched), bus.band(watched)].concat();
    rows.retain(|&row| row != watched);
    rows.push(watched);
    rows
}

/// A time within the row's period, so early that half of the run is still to come.
fn some_time(bus: &Bus, row: usize, end: u32, prng: &mut Prng) -> u32 {
    prng.between(0, bus.rows[row].t.min(end / 2))
}

/// The frames in the order of queuing; those of one bit time stay as they stand.
fn in_turn(mut run: Vec<Frame>) -> Vec<Frame> {
    run.sort_by_key(|frame| frame.queued);
    run
}
