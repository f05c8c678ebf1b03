//! The sums done by hand at the end of document 01, case k as request L2 changes it, put to the
//! second program.

use second::{find, judge, Reply};

/// What a lent word holds before the call; no figure or row number is as great.
const LENT: u32 = 0xC0DE_C0DE;

/// A row as document 01 writes it: (queue, C, T, D, J), form 0.
type Short = (u32, u32, u32, u32, u32);

const A: [Short; 4] = [
    (0, 125, 1000, 750, 0),
    (0, 125, 1000, 350, 0),
    (0, 125, 1000, 750, 0),
    (0, 75, 1000, 1000, 0),
];
const C: [Short; 3] = [(1, 100, 1000, 1000, 0), (1, 60, 1000, 600, 0), (0, 80, 500, 500, 0)];

fn words(rows: &[Short]) -> Vec<u32> {
    rows.iter().flat_map(|&(queue, c, t, d, j)| [queue, 0, c, t, d, j]).collect()
}

/// The reply and all words of a lent list two places longer than the order.
fn judged(table: &[u32], order: &[u32]) -> (Reply, Vec<u32>) {
    let mut figures = vec![LENT; order.len() + 2];
    let reply = judge(table, order, &mut figures);
    (reply, figures)
}

/// The order is answered with `reply` and these figures by row, and nothing past them is written.
fn answers(rows: &[Short], order: &[u32], reply: Reply, figures: &[u32]) {
    let lent = [figures, &[LENT, LENT]].concat();
    assert_eq!(judged(&words(rows), order), (reply, lent));
}

/// The table is refused with `reply` and no word is altered.
fn refuses(table: &[u32], order: &[u32], reply: Reply) {
    assert_eq!(judged(table, order), (reply, vec![LENT; order.len() + 2]));
}

/// The reply and all words of a list of so many places lent for the order.
fn found(table: &[u32], room: usize) -> (Reply, Vec<u32>) {
    let mut order = vec![LENT; room];
    let reply = find(table, &mut order);
    (reply, order)
}

/// This order is found after so many bands tried, and nothing past it is written.
fn finds(rows: &[Short], order: &[u32], tried: u32) {
    let lent = [order, &[LENT, LENT]].concat();
    assert_eq!(found(&words(rows), rows.len() + 2), (Reply::Found(tried), lent));
}

/// No order is looked for or none is found, and no word of so much room is altered.
fn finds_none(table: &[u32], room: usize, reply: Reply) {
    assert_eq!(found(table, room), (reply, vec![LENT; room]));
}

#[test]
fn a_four_priority_rows() {
    answers(&A, &[3, 1, 0, 2], Reply::Passed, &[450, 325, 575, 200]);
}

#[test]
fn b_the_order_found_for_a() {
    finds(&A, &[3, 1, 2, 0], 5);
    answers(&A, &[3, 1, 2, 0], Reply::Passed, &[575, 325, 450, 200]);
}

#[test]
fn c_fifo_below_a_priority_row() {
    answers(&C, &[2, 0, 1], Reply::Passed, &[340, 340, 180]);
    // Rows of a FIFO are of one band, in whichever order they are given.
    answers(&C, &[2, 1, 0], Reply::Passed, &[340, 340, 180]);
}

#[test]
fn c_the_order_found() {
    // The FIFO passes at the lowest place, as the first that is tried there.
    finds(&C, &[2, 0, 1], 2);
}

#[test]
fn d_fifo_above_a_priority_row() {
    answers(&C, &[0, 1, 2], Reply::Passed, &[260, 260, 320]);
}

#[test]
fn e_split_fifo() {
    refuses(&words(&C), &[0, 2, 1], Reply::SplitQueue(2));
}

#[test]
fn f_the_one_bit_time_of_the_source() {
    answers(&[(0, 10, 30, 30, 0), (0, 20, 100, 100, 0)], &[0, 1], Reply::Passed, &[30, 60]);
}

#[test]
fn g_late_above_a_row_that_passes() {
    answers(&[(0, 10, 30, 29, 0), (0, 20, 100, 100, 0)], &[0, 1], Reply::Late(0), &[0, 60]);
}

#[test]
fn h_one_row_behind_its_predecessor() {
    answers(&[(0, 55, 110, 110, 0)], &[0], Reply::Passed, &[110]);
    answers(&[(0, 55, 110, 109, 0)], &[0], Reply::Late(0), &[0]);
}

#[test]
fn i_no_order() {
    let table = words(&[(0, 10, 19, 19, 0); 2]);
    finds_none(&table, 4, Reply::NoOrder { unplaced: 2, tried: 2 });
    finds_none(&table, 1, Reply::NoRoom);
}

#[test]
fn j_jitter_takes_the_whole_deadline() {
    answers(&[(0, 10, 100, 50, 50)], &[0], Reply::Late(0), &[0]);
}

#[test]
fn k_lengths_by_frame_format() {
    // One row alone: nothing above or below, so w = C and its figure is 2C.
    for (form, bytes, c) in [(1, 0, 55), (2, 0, 80), (1, 8, 135), (2, 8, 160)] {
        let lent = vec![2 * c, LENT, LENT];
        assert_eq!(judged(&[0, form, bytes, 1000, 1000, 0], &[0]), (Reply::Passed, lent));
    }
}

#[test]
fn l_tables_that_cannot_be_read() {
    let refused = |table: &[u32], rows: u32, reply: Reply| {
        refuses(table, &(0..rows).collect::<Vec<_>>(), reply);
        finds_none(table, rows as usize, reply);
    };
    refused(&[], 0, Reply::Ragged);
    refused(&[0, 0, 10, 100, 100, 0, 0], 1, Reply::Ragged);
    refused(&words(&[(0, 1, 1000, 1000, 0); 65]), 65, Reply::TooMany);
    refused(&[0, 0, 0, 100, 100, 0], 1, Reply::BadRow { row: 0, field: 3 });
    refused(&[0, 1, 9, 1000, 1000, 0], 1, Reply::BadRow { row: 0, field: 3 });
    refused(&[0, 0, 10, 1_000_001, 100, 0], 1, Reply::BadRow { row: 0, field: 4 });
}
