//! The shapes of runs are as bad as they are meant to be: on one small table, the frames that a
//! worst-case shape starts with were worked out on paper, and many of its runs start just so.

use bus::{run, Bus, Frame, Shape};
use tables::Prng;

const TABLE: [u32; 24] = [
    1, 0, 10, 500, 500, 5, // row 0, in FIFO 1
    1, 0, 20, 1000, 1000, 0, // row 1, in FIFO 1 too
    0, 0, 15, 80, 80, 25, // row 2, above
    0, 0, 30, 1000, 1000, 0, // row 3, below
];
const ORDER: [u32; 4] = [2, 0, 1, 3];
const RUNS: u64 = 200;
const END: u32 = 2_000;

/// A frame as (row, bit time in which it is queued, wait, length).
type Short = (usize, u32, u32, u32);

/// So many runs of this shape at least start with these frames, if time counts from the first one.
#[track_caller]
fn start(shape: Shape, watched: usize, least: usize, frames: &[Short]) {
    let expected: Vec<Frame> = frames.iter().copied().map(Frame::from).collect();
    let bus = Bus::new(&TABLE, &ORDER);
    let starts_so = |&seed: &u64| {
        let mut run = run(&bus, shape, watched, END, &mut Prng::new(seed));
        let first = run[0].queued;
        run.iter_mut().for_each(|frame| frame.queued -= first);
        run.starts_with(&expected)
    };
    let times = (0..RUNS).filter(starts_so).count();
    assert!(times >= least, "only {times} of {RUNS} runs start so");
}

// The jitter of row 2 brings its second frame before the watched one. That takes 89 bit times; its
// figure is 90.
#[test]
fn behind_a_lower_frame() {
    let frames = [(3, 0, 0, 30), (2, 1, 25, 15), (1, 1, 0, 20), (0, 1, 5, 10), (2, 56, 0, 15)];
    start(Shape::BehindLower, 0, 80, &frames);
    let bus = Bus::new(&TABLE, &ORDER);
    assert_eq!(bus.sent(&frames.map(Frame::from), 90), [30, 45, 65, 90, 80].map(Some));
}

#[test]
fn behind_a_frame_of_the_same_fifo() {
    let frames = [(1, 0, 0, 20), (2, 1, 25, 15), (0, 1, 5, 10), (2, 56, 0, 15)];
    start(Shape::BehindOwn, 0, 40, &frames);
}

// Here the frame of the same FIFO is itself delayed by the lower one.
#[test]
fn behind_a_frame_of_the_same_fifo_and_a_lower_one() {
    let frames = [(3, 0, 0, 30), (1, 1, 0, 20), (2, 31, 25, 15), (0, 31, 5, 10), (2, 86, 0, 15)];
    start(Shape::BehindOwn, 0, 40, &frames);
}

// The next frame of a row comes as soon as it may, which is T - J later.
#[test]
fn behind_its_own_earlier_frame() {
    start(Shape::BehindOwn, 2, 40, &[(2, 0, 25, 15), (2, 55, 0, 15)]);
    start(Shape::BehindOwn, 2, 40, &[(3, 0, 0, 30), (2, 1, 25, 15), (2, 56, 0, 15)]);
}
