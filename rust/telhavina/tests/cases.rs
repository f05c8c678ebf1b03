//! 'Sums done by hand' of document 01, and some about the start of request L3, put to the library
//! across the C boundary. Every word of the lent list is looked at, those past the last row too.

mod rows;

use rows::{words, Short, A, C, GOOD, LENT, SPARE};
use telhavina::{judge, Judgement, Refusal};

use Judgement::{Late, Passed, Refused};

const F: [Short; 2] = [(0, 10, 30, 30, 0), (0, 20, 100, 100, 0)];

/// The order is answered so, with these figures by row, and no place past them is written.
#[track_caller]
fn answers(table: &[u32], order: &[u32], judgement: Judgement, figures: &[u32]) {
    let mut lent = vec![LENT; figures.len() + SPARE];
    assert_eq!(judge(table, order, &mut lent), judgement);
    assert_eq!(lent, [figures, &[LENT; SPARE]].concat());
}

/// The question is refused so with a lent list of so many words, and none of them is altered.
#[track_caller]
fn refuses(table: &[u32], order: &[u32], room: usize, refusal: Refusal) {
    let mut lent = vec![LENT; room];
    assert_eq!(judge(table, order, &mut lent), Refused(refusal));
    assert_eq!(lent, vec![LENT; room]);
}

// Document 01, case a: 'passed; figures by row 450, 325, 575, 200'.
#[test]
fn a_four_priority_rows() {
    answers(&words(&A), &[3, 1, 0, 2], Passed, &[450, 325, 575, 200]);
}

// Document 01, case b, its judging half: 'Judged, it gives 575, 325, 450, 200'.
#[test]
fn b_the_order_found_for_a() {
    answers(&words(&A), &[3, 1, 2, 0], Passed, &[575, 325, 450, 200]);
}

// Document 01, case c: 'Order 2 0 1: 340, 340, 180'.
#[test]
fn c_fifo_below_a_priority_row() {
    answers(&words(&C), &[2, 0, 1], Passed, &[340, 340, 180]);
}

// Document 01, case c with the FIFO's rows the other way round: they are one band all the same.
#[test]
fn c_rows_of_a_fifo_in_any_order() {
    answers(&words(&C), &[2, 1, 0], Passed, &[340, 340, 180]);
}

// Document 01, case d: 'Same, order 0 1 2: 260, 260, 320'.
#[test]
fn d_fifo_above_a_priority_row() {
    answers(&words(&C), &[0, 1, 2], Passed, &[260, 260, 320]);
}

// Document 01, case e: 'Same, order 0 2 1: refusal 7, position 2'.
#[test]
fn e_split_fifo() {
    refuses(&words(&C), &[0, 2, 1], 3 + SPARE, Refusal::SplitQueue { place: 2 });
}

// Document 01, case f: 'order 0 1: 30, 60'. B alone, a dropped + 1, or the rows judged one by one
// would give row 1 another figure.
#[test]
fn f_the_one_bit_time_of_the_source() {
    answers(&words(&F), &[0, 1], Passed, &[30, 60]);
}

// Document 01, case g: 'As f with the first deadline 29: late, position 0; figures 0, 60'.
#[test]
fn g_late_above_a_row_that_passes() {
    answers(&words(&[(0, 10, 30, 29, 0), F[1]]), &[0, 1], Late { place: 0 }, &[0, 60]);
}

// Document 01, reply table: late carries a position in the order. With the rows of g the other
// way round in the table it is still 0, though the late row is 1.
#[test]
fn g_late_carries_a_place_and_not_a_row() {
    answers(&words(&[F[1], (0, 10, 30, 29, 0)]), &[1, 0], Late { place: 0 }, &[60, 0]);
}

// Document 01, case h: 'One row (0,55,110,110,0): 110'.
#[test]
fn h_one_row_behind_its_predecessor() {
    answers(&words(&[(0, 55, 110, 110, 0)]), &[0], Passed, &[110]);
}

// Document 01, case h: 'With deadline 109: late, 0'.
#[test]
fn h_one_bit_time_too_late() {
    answers(&words(&[(0, 55, 110, 109, 0)]), &[0], Late { place: 0 }, &[0]);
}

// Document 01, case j: 'One row (0,10,100,50,50): late, position 0; figure 0'.
#[test]
fn j_jitter_takes_the_whole_deadline() {
    answers(&words(&[(0, 10, 100, 50, 50)]), &[0], Late { place: 0 }, &[0]);
}

// Document 01, case k, by request L2: 'the four numbers become 55, 80, 135 and 160'. These are
// lengths C, the first two and 10 more for each byte, as the header says. A row alone has nothing
// above or below, so F(w) = max(0, C), w = C, and its figure is w + C = 2C: twice the length, and
// just within a deadline of that.
#[test]
fn k_lengths_by_frame_format() {
    for (form, least) in [(1, 55), (2, 80)] {
        for bytes in 0..=8 {
            let c = least + 10 * bytes;
            answers(&[0, form, bytes, 1000, 2 * c, 0], &[0], Passed, &[2 * c]);
            answers(&[0, form, bytes, 1000, 2 * c - 1, 0], &[0], Late { place: 0 }, &[0]);
        }
    }
}

// Document 01, case l: 'No words: 1'. With empty slices throughout, and with room lent.
#[test]
fn l_no_words() {
    refuses(&[], &[], 0, Refusal::Ragged);
    refuses(&[], &[], SPARE, Refusal::Ragged);
    refuses(&[], &[0], SPARE, Refusal::Ragged);
}

// Document 01, case l: 'Seven words: 1'.
#[test]
fn l_seven_words() {
    refuses(&[0, 0, 10, 100, 100, 0, 0], &[0], SPARE, Refusal::Ragged);
}

// Document 01, case l: '65 rows: 2'; and 64 rows are not too many.
#[test]
fn l_too_many_rows() {
    let order: Vec<u32> = (0..65).collect();
    refuses(&GOOD.repeat(65), &order, 65 + SPARE, Refusal::TooMany);
    // 64 rows of C 1 and nothing that comes twice: at place p, w = 1 + p and the figure is 2 + p.
    let table = words(&[(0, 1, 1000, 1000, 0); 64]);
    let figures: Vec<u32> = (0..64).map(|place| place + 2).collect();
    answers(&table, &order[..64], Passed, &figures);
}

// Document 01, case l: 'Size 0 in form 0, or 9 in form 1: 3 with field 3'.
#[test]
fn l_sizes_out_of_range() {
    let refusal = Refusal::BadRow { row: 0, field: 3 };
    refuses(&[0, 0, 0, 1000, 1000, 0], &[0], 1 + SPARE, refusal);
    refuses(&[0, 1, 9, 1000, 1000, 0], &[0], 1 + SPARE, refusal);
}

// Document 01, case l: 'T = 1,000,001: 3 with field 4'.
#[test]
fn l_period_out_of_range() {
    let refusal = Refusal::BadRow { row: 0, field: 4 };
    refuses(&[0, 0, 10, 1_000_001, 1000, 0], &[0], 1 + SPARE, refusal);
}

/// Two rows, and a third below them with this deadline.
fn below_two_rows(first: Short, second: Short, deadline: u32) -> Vec<u32> {
    words(&[first, second, (0, 20, 100, deadline, 0)])
}

// Request L3: the search of the third row starts at its C and the two above it, 20 + 3 + 4 = 27,
// and F(27) = 20 + 3 + 4, for 28 / 28 and 50 / 50 are 1. So its figure is 27 + 20 = 47. With a
// deadline of 47 the start is just within what is allowed, and with 46 just past it.
#[test]
fn l3_the_start_is_the_answer() {
    let table = |deadline| below_two_rows((0, 3, 28, 28, 0), (0, 4, 50, 50, 22), deadline);
    answers(&table(100), &[0, 1, 2], Passed, &[23, 27, 47]);
    answers(&table(47), &[0, 1, 2], Passed, &[23, 27, 47]);
    answers(&table(46), &[0, 1, 2], Late { place: 2 }, &[23, 27, 0]);
}

// Request L3: the start is 27 again, but 28 / 27 is rounded up to 2: F(27) = 20 + 6 + 4 = 30, and
// so is F(30). With a deadline of 49 the start is within what is allowed but the answer is not,
// with 47 the start is all that is allowed, and with 46 it is past that.
#[test]
fn l3_the_start_is_below_the_answer() {
    let table = |deadline| below_two_rows((0, 3, 27, 27, 0), (0, 4, 60, 60, 22), deadline);
    answers(&table(50), &[0, 1, 2], Passed, &[23, 27, 50]);
    for deadline in [49, 47, 46] {
        answers(&table(deadline), &[0, 1, 2], Late { place: 2 }, &[23, 27, 0]);
    }
}

// Request L3, 'or at the FIFO's constant part', with the table of case c: 100 + 160 - 60 = 200, and
// 80 above it. F(280) is 280, and the figure 280 + 60 = 340.
#[test]
fn l3_the_start_of_a_fifo() {
    let table = |deadline| words(&[C[0], (1, 60, 1000, deadline, 0), C[2]]);
    answers(&table(340), &[2, 0, 1], Passed, &[340, 340, 180]);
    answers(&table(339), &[2, 0, 1], Late { place: 1 }, &[0, 0, 180]);
}
