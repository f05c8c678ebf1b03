//! What makes a run legal, and each way to break a licence.

use bus::{Breach, Bus, Frame};

/// Row 0 has C 10, T 50 and J 20. Row 1 has C 4, and a jitter of its whole period, 30.
const TABLE: [u32; 12] = [
    0, 0, 10, 50, 40, 20, //
    1, 0, 4, 30, 30, 30,
];

/// A frame as (row, bit time in which it is queued, wait, length).
type Short = (usize, u32, u32, u32);

/// The breach in this run.
fn breach(frames: &[Short]) -> Option<Breach> {
    let run: Vec<Frame> = frames.iter().copied().map(Frame::from).collect();
    Bus::new(&TABLE, &[0, 1]).breach(&run)
}

#[test]
fn nothing_at_all() {
    assert_eq!(breach(&[]), None);
}

#[test]
fn a_row_of_the_table() {
    assert_eq!(breach(&[(1, 0, 0, 1)]), None);
    assert_eq!(breach(&[(0, 0, 0, 1), (2, 0, 0, 1)]), Some(Breach::NoSuchRow(1)));
}

// Queues are filled as the run lists its frames, so it lists them as they are queued.
#[test]
fn in_the_order_of_queuing() {
    assert_eq!(breach(&[(1, 7, 0, 1), (0, 7, 0, 1), (1, 37, 0, 1)]), None);
    assert_eq!(breach(&[(1, 7, 0, 1), (0, 6, 0, 1)]), Some(Breach::OutOfTurn(1)));
    assert_eq!(breach(&[(1, 7, 0, 1), (1, 37, 0, 1), (0, 36, 0, 1)]), Some(Breach::OutOfTurn(2)));
}

// 'Each event queues one instance, 0 to J after it'.
#[test]
fn a_wait_of_at_most_j() {
    assert_eq!(breach(&[(0, 100, 20, 10)]), None);
    assert_eq!(breach(&[(0, 100, 21, 10)]), Some(Breach::LongWait(0)));
}

// 'Its own length, 1 to C'.
#[test]
fn a_length_of_1_to_c() {
    assert_eq!(breach(&[(0, 0, 0, 1), (0, 50, 0, 10)]), None);
    assert_eq!(breach(&[(0, 0, 0, 0)]), Some(Breach::BadLength(0)));
    assert_eq!(breach(&[(0, 0, 0, 1), (0, 50, 0, 11)]), Some(Breach::BadLength(1)));
    // Within the C of the other row, but not its own.
    assert_eq!(breach(&[(1, 0, 0, 5)]), Some(Breach::BadLength(0)));
}

// 'Events of a row are at least T apart': events, so that frames may be J nearer.
#[test]
fn events_t_apart() {
    assert_eq!(breach(&[(0, 3, 0, 1), (0, 53, 0, 1)]), None);
    assert_eq!(breach(&[(0, 3, 0, 1), (0, 52, 0, 1)]), Some(Breach::SoonEvent(1)));
    assert_eq!(breach(&[(0, 23, 20, 1), (0, 53, 0, 1)]), None);
    assert_eq!(breach(&[(0, 23, 20, 1), (0, 52, 0, 1)]), Some(Breach::SoonEvent(1)));
    assert_eq!(breach(&[(0, 23, 0, 1), (0, 92, 20, 1)]), Some(Breach::SoonEvent(1)));
    // Frames of another row between them or beside them do not matter, and do not hide it.
    assert_eq!(breach(&[(0, 3, 0, 1), (1, 3, 0, 1), (0, 53, 0, 1)]), None);
    assert_eq!(breach(&[(0, 3, 0, 1), (1, 20, 0, 1), (0, 52, 0, 1)]), Some(Breach::SoonEvent(2)));
}

// An event 'may lie before time 0'.
#[test]
fn an_event_before_time_0() {
    assert_eq!(breach(&[(0, 5, 20, 1), (0, 35, 0, 1)]), None);
    assert_eq!(breach(&[(0, 5, 20, 1), (0, 34, 0, 1)]), Some(Breach::SoonEvent(1)));
}

// With J = T two frames may be queued in one bit time; a run may list them either way round.
#[test]
fn two_frames_of_a_row_in_one_bit_time() {
    assert_eq!(breach(&[(1, 30, 30, 1), (1, 30, 0, 1)]), None);
    assert_eq!(breach(&[(1, 30, 0, 1), (1, 30, 30, 1)]), None);
    assert_eq!(breach(&[(1, 30, 0, 1), (1, 30, 29, 1)]), Some(Breach::SoonEvent(0)));
}
