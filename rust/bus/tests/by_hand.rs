//! Small runs whose every frame was followed on paper, by the words of document 01 on the bus.

use bus::{Bus, Frame};

/// Two rows of a FIFO between a low row and a high one; row 2 stands above row 1 in the order.
const TABLE: [u32; 24] = [
    0, 0, 10, 17, 17, 0, // row 0, the lowest
    1, 0, 6, 49, 49, 0, // row 1, in FIFO 1
    1, 0, 4, 48, 48, 0, // row 2, in FIFO 1 too
    0, 0, 5, 6, 6, 0, // row 3, the highest
];
const ORDER: [u32; 4] = [3, 2, 1, 0];
const LOW: usize = 0;
const FIFO_A: usize = 1;
const FIFO_B: usize = 2;
const HIGH: usize = 3;

/// A frame as (row, bit time in which it is queued, length); none of these rows has a jitter.
type Short = (usize, u32, u32);

/// When each frame is wholly sent in a run that lasts until `end`.
fn sent_by(end: u32, frames: &[Short]) -> Vec<Option<u32>> {
    let frame = |&(row, queued, length): &Short| Frame::from((row, queued, 0, length));
    let run: Vec<Frame> = frames.iter().map(frame).collect();
    let bus = Bus::new(&TABLE, &ORDER);
    assert_eq!(bus.breach(&run), None);
    bus.sent(&run, end)
}

/// The frames are wholly sent at these times.
#[track_caller]
fn sends(frames: &[Short], times: &[u32]) {
    let times: Vec<Option<u32>> = times.iter().copied().map(Some).collect();
    assert_eq!(sent_by(100, frames), times);
}

// The bus is free at time 0, and whenever nothing waits: a frame alone takes its own length.
#[test]
fn alone() {
    sends(&[(LOW, 0, 2), (LOW, 20, 10), (HIGH, 31, 1)], &[2, 30, 32]);
}

// 'Holds the bus for its own length with no interruption': not one bit time more or less.
#[test]
fn a_higher_frame_one_bit_time_late_waits() {
    sends(&[(LOW, 0, 10), (HIGH, 1, 5)], &[10, 15]);
}

// 'Those queued in that bit time included', on an idle bus and on one that comes free just then.
#[test]
fn frames_queued_in_the_same_bit_time_compete() {
    sends(&[(LOW, 3, 10), (HIGH, 3, 5)], &[18, 8]);
    sends(&[(FIFO_A, 0, 6), (LOW, 2, 10), (HIGH, 6, 5)], &[6, 21, 11]);
}

// One bit time later than that is too late.
#[test]
fn a_higher_frame_queued_just_after_the_start_waits() {
    sends(&[(FIFO_A, 0, 6), (LOW, 2, 10), (HIGH, 7, 5)], &[6, 16, 21]);
}

// Frames follow each other without a gap, highest first and not as they were queued.
#[test]
fn highest_first() {
    sends(&[(HIGH, 0, 4), (LOW, 1, 3), (FIFO_A, 2, 2), (HIGH, 6, 5)], &[4, 14, 6, 11]);
}

// 'Oldest first', though the younger stands higher in the order.
#[test]
fn a_fifo_sends_its_oldest() {
    sends(&[(HIGH, 0, 5), (FIFO_A, 1, 6), (FIFO_B, 2, 4)], &[5, 11, 15]);
    sends(&[(HIGH, 0, 5), (FIFO_B, 1, 4), (FIFO_A, 2, 6)], &[5, 9, 15]);
}

// 'Those of one bit time in any order': the run says in which.
#[test]
fn a_fifo_takes_frames_of_one_bit_time_as_they_are_listed() {
    sends(&[(FIFO_A, 4, 6), (FIFO_B, 4, 4)], &[10, 14]);
    sends(&[(FIFO_B, 4, 4), (FIFO_A, 4, 6)], &[8, 14]);
}

// The queue of a priority row holds several of its instances, oldest first.
#[test]
fn a_priority_row_sends_its_oldest() {
    sends(&[(LOW, 0, 10), (HIGH, 1, 5), (HIGH, 7, 2)], &[10, 15, 17]);
}

// A frame is sent if its length is over when the run ends, and not a bit time before that.
#[test]
fn the_run_ends() {
    let frames = [(LOW, 0, 10), (HIGH, 1, 5)];
    assert_eq!(sent_by(15, &frames), [Some(10), Some(15)]);
    assert_eq!(sent_by(14, &frames), [Some(10), None]);
    assert_eq!(sent_by(10, &frames), [Some(10), None]);
    assert_eq!(sent_by(9, &frames), [None, None]);
}

// All of it in one run: 0 low, 10 high, 15 FIFO, 21 high, 24 FIFO, 28 low, 35 high, idle from 40.
#[test]
fn blocking_a_fifo_and_a_higher_row() {
    let frames = [
        (LOW, 0, 10),
        (FIFO_A, 1, 6),
        (FIFO_B, 2, 4),
        (HIGH, 10, 5),
        (HIGH, 16, 3),
        (LOW, 17, 7),
        (HIGH, 29, 5),
        (FIFO_B, 50, 1),
        (FIFO_A, 50, 2),
    ];
    sends(&frames, &[10, 21, 28, 15, 24, 35, 40, 51, 53]);
}

// Bands above and below, by the order and not by row number; a FIFO is one band.
#[test]
fn above_and_below() {
    let bus = Bus::new(&TABLE, &ORDER);
    for row in [FIFO_A, FIFO_B] {
        assert_eq!(bus.above(row), [HIGH]);
        assert_eq!(bus.band(row), [FIFO_A, FIFO_B]);
        assert_eq!(bus.below(row), [LOW]);
    }
    assert_eq!(bus.above(LOW), [FIFO_A, FIFO_B, HIGH]);
    assert_eq!(bus.below(HIGH), [LOW, FIFO_A, FIFO_B]);
}

// Request L2: 'In case k the four numbers become 55, 80, 135 and 160. Form 0 rows keep their C'.
#[test]
fn lengths_by_frame_format() {
    for (form, bytes, c) in [(1, 0, 55), (2, 0, 80), (1, 8, 135), (2, 8, 160), (0, 8, 8)] {
        assert_eq!(Bus::new(&[0, form, bytes, 1000, 1000, 0], &[0]).rows[0].c, c);
    }
}
