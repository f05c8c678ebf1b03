//! The cases of 'Sums done by hand' of document 01 that ask for an order, and a few like them, put
//! to the library across the C boundary. Every word of the lent list is looked at, those past the
//! last row too.

mod rows;

use rows::{words, Short, A, C, GOOD, LENT, SPARE};
use telhavina::{find, judge, Finding, Judgement, Refusal};

/// This order is found after so many bands tried, in a lent list that has just enough room and in
/// one that has more, and no place past it is written.
#[track_caller]
fn finds(rows: &[Short], order: &[u32], tried: usize) {
    for spare in [0, SPARE] {
        let mut lent = vec![LENT; order.len() + spare];
        assert_eq!(find(&words(rows), &mut lent), Finding::Found { tried });
        assert_eq!(lent, [order, &vec![LENT; spare]].concat());
    }
}

/// The question is refused so with a lent list of so many words, and none of them is altered.
#[track_caller]
fn refuses(table: &[u32], room: usize, refusal: Refusal) {
    let mut lent = vec![LENT; room];
    assert_eq!(find(table, &mut lent), Finding::Refused(refusal));
    assert_eq!(lent, vec![LENT; room]);
}

/// There is no order of these rows.
#[track_caller]
fn finds_none(rows: &[Short], unplaced: usize, tried: usize) {
    refuses(&words(rows), rows.len() + SPARE, Refusal::NoOrder { unplaced, tried });
}

// Document 01, case b: 'order 3 1 2 0, five bands tried. Judged, it gives 575, 325, 450, 200'.
#[test]
fn b_four_priority_rows() {
    finds(&A, &[3, 1, 2, 0], 5);
    let mut figures = [0; 4];
    assert_eq!(judge(&words(&A), &[3, 1, 2, 0], &mut figures), Judgement::Passed);
    assert_eq!(figures, [575, 325, 450, 200]);
}

// The table of case c: at the lowest place the FIFO is tried first, and passes with 340 as in c.
#[test]
fn c_fifo_and_a_priority_row() {
    finds(&C, &[2, 0, 1], 2);
}

// The same with the priority row between those of the FIFO, and first: they stay together, in
// rising row number, and the FIFO comes to be tried where its first row does. The priority row
// passes at the lowest place too, with 320 as in d.
#[test]
fn c_rows_in_another_order() {
    finds(&[C[0], C[2], C[1]], &[1, 0, 2], 2);
    finds(&[C[2], C[0], C[1]], &[1, 2, 0], 2);
}

// The bands are tried by their first rows, not by their FIFO numbers, and not priority rows first.
#[test]
fn bands_are_tried_by_their_first_row() {
    let row = |queue: u32| (queue, 1, 1000, 1000, 0);
    finds(&[row(64), row(0), row(1), row(64), row(0)], &[4, 2, 1, 0, 3], 4);
}

// Document 01, case i: 'finding gives refusal 8, two unplaced, two tried'.
#[test]
fn i_no_order() {
    finds_none(&[(0, 10, 19, 19, 0); 2], 2, 2);
}

// The same rows in a FIFO are one band. It would need 10 + 20, and its least time allowed decides.
#[test]
fn no_order_counts_bands_and_not_rows() {
    finds_none(&[(5, 10, 100, 19, 0); 2], 1, 1);
    finds_none(&[(5, 10, 100, 100, 0), (5, 10, 100, 29, 0)], 1, 1);
    finds(&[(5, 10, 100, 100, 0), (5, 10, 100, 30, 0)], &[0, 1], 1);
}

// The highest place is tried and counted too: the rows of h and j with deadlines that are too
// short are refused also where they are alone.
#[test]
fn one_row_alone() {
    finds(&[(0, 55, 110, 110, 0)], &[0], 1);
    finds_none(&[(0, 55, 110, 109, 0)], 1, 1);
    finds_none(&[(0, 10, 100, 50, 50)], 1, 1);
}

// Row 1 takes the lowest place at the second try, and row 0 above it has to wait for the longest
// frame below: its figure is 100 + 10.
#[test]
fn placed_rows_block_those_above() {
    let rows = |d: u32| [(0, 10, 1000, d, 0), (0, 100, 1000, 1000, 0)];
    finds(&rows(110), &[0, 1], 3);
    finds_none(&rows(109), 1, 3);
}

// Two rows that can never pass, 2C being 20, and one that passes below them: with 8 all bands
// tried before are counted, and those of the place where none passes.
#[test]
fn no_order_above_a_row_that_is_placed() {
    let (never, low) = ((0, 10, 1000, 19, 0), (0, 10, 1000, 1000, 0));
    finds_none(&[never, never, low], 2, 3 + 2);
    finds_none(&[low, never, never], 2, 1 + 2);
    finds_none(&[never, low, low, never], 2, 2 + 2 + 2);
}

// 'With b bands that is never more than b(b + 1) / 2', nor less than b. At place p of 64 rows of
// C 1 the figure is 2 + p, so row i, if it is allowed 2 + i, passes at place i and at none lower.
#[test]
fn most_and_fewest_bands_tried() {
    let rising: Vec<Short> = (0..64).map(|row| (0, 1, 1000, 2 + row, 0)).collect();
    let falling: Vec<Short> = rising.iter().copied().rev().collect();
    let order: Vec<u32> = (0..64).collect();
    let reverse: Vec<u32> = (0..64).rev().collect();
    finds(&rising, &order, 64 * 65 / 2);
    finds(&falling, &reverse, 64);
}

// Document 01, case l: 'No words: 1. Seven words: 1'. With an empty lent list, and with room.
#[test]
fn l_ragged() {
    refuses(&[], 0, Refusal::Ragged);
    refuses(&[], SPARE, Refusal::Ragged);
    refuses(&[0, 0, 10, 100, 100, 0, 0], SPARE, Refusal::Ragged);
}

// Document 01, case l: '65 rows: 2'.
#[test]
fn l_too_many_rows() {
    refuses(&GOOD.repeat(65), 65 + SPARE, Refusal::TooMany);
}

// Document 01, case l: 'Size 0 in form 0, or 9 in form 1: 3 with field 3. T = 1,000,001: 3 with
// field 4'.
#[test]
fn l_bad_rows() {
    refuses(&[0, 0, 0, 1000, 1000, 0], 1 + SPARE, Refusal::BadRow { row: 0, field: 3 });
    refuses(&[0, 1, 9, 1000, 1000, 0], 1 + SPARE, Refusal::BadRow { row: 0, field: 3 });
    refuses(&[0, 0, 10, 1_000_001, 1000, 0], 1 + SPARE, Refusal::BadRow { row: 0, field: 4 });
}

// Refusal 4: 'lent list shorter than n'.
#[test]
fn no_room_for_the_order() {
    for room in 0..A.len() {
        refuses(&words(&A), room, Refusal::NoRoom);
    }
}
