//! Every refusal of the desk by itself, at the ends of its case, and what is no refusal next to it.

use telhavina::{Ledger, Refusal};

use crate::{
    grants, ledger, light, no_order, refuses, takes_out, withdrawing_refuses, Row, BAD, LAST,
    LIGHT, NET, NEVER, NOW, RUDDER,
};

/// For each field a row that is bad in it, and in none before it.
const BAD_ROWS: [Row; 6] = [
    [65, 3, 0, 0, 0, 0],
    [64, 3, 0, 0, 0, 0],
    [0, 1, 9, 0, 0, 0],
    [0, 2, 8, 1_000_001, 0, 0],
    [1, 0, 4096, 1_000_000, 1_000_001, 0],
    [1, 0, 1, 1_000_000, 999_999, 1_000_000],
];

/// The ledger is refused whatever is asked of it.
#[track_caller]
fn is_bad(ledger: &Ledger) {
    refuses(ledger, &LIGHT, ledger.edition, Refusal::BadLedger);
    for row in [0, ledger.held.wrapping_sub(1)] {
        withdrawing_refuses(ledger, row, ledger.edition, Refusal::BadLedger);
    }
}

// Refusal 23: 'a lent ledger over the row limit'. 64 rows are not over it.
#[test]
fn a_ledger_over_the_row_limit() {
    let full = ledger(&[LIGHT; 64], NOW);
    for held in [65, 66, 128, 255, 256, 256 + 64, 1 << 16, (1 << 31) + 1, LAST - 1, LAST] {
        is_bad(&Ledger { held, ..full.clone() });
    }
    takes_out(&mut full.clone(), 63, &[LIGHT; 63]);
}

// Refusal 23: 'or holding a bad row', in any place and any field.
#[test]
fn a_ledger_with_a_bad_row() {
    for bad in BAD_ROWS {
        for held in [1, 2, 64] {
            for at in [0, held / 2, held - 1] {
                let mut rows = vec![LIGHT; held];
                rows[at] = bad;
                is_bad(&ledger(&rows, NOW));
            }
        }
    }
}

// What stands behind the held rows is none of theirs, good or bad.
#[test]
fn bad_words_behind_the_held_rows() {
    for bad in BAD_ROWS {
        let behind = |held: u32| Ledger { held, ..ledger(&[LIGHT, bad, bad], NOW) };
        grants(&mut behind(0), RUDDER, &[RUDDER]);
        grants(&mut behind(1), RUDDER, &[LIGHT, RUDDER]);
        takes_out(&mut behind(1), 0, &[]);
        is_bad(&behind(2));
    }
}

// Refusal 1: a claim brings one row, and that has six words; twelve are not one row.
#[test]
fn other_lengths_of_the_row() {
    let words = LIGHT.repeat(65);
    for length in (0..6).chain(7..=18).chain([64 * 6, 65 * 6]) {
        for held in [0, 1, 64] {
            refuses(&ledger(&vec![LIGHT; held], NOW), &words[..length], NOW, Refusal::Ragged);
        }
    }
}

// Refusal 3: '(3, row 0)' however many rows are held, and with the lowest bad field.
#[test]
fn a_bad_claim() {
    for (bad, field) in BAD_ROWS.into_iter().zip(1..) {
        for held in [0, 1, 5, 63] {
            let refusal = Refusal::BadRow { row: 0, field };
            refuses(&ledger(&vec![LIGHT; held], NOW), &bad, NOW, refusal);
        }
    }
    refuses(&ledger(&[], NOW), &BAD, NOW, Refusal::BadRow { row: 0, field: 2 });
}

// Refusal 9: 'ledger closed because the edition is 4,294,967,295'.
#[test]
fn a_closed_ledger() {
    for held in [0, 1, 63] {
        let closed = ledger(&vec![LIGHT; held], LAST);
        refuses(&closed, &LIGHT, LAST, Refusal::Closed);
    }
    for row in 0..3 {
        withdrawing_refuses(&ledger(&[LIGHT; 3], LAST), row, LAST, Refusal::Closed);
    }
}

// At 4,294,967,294 a change is still made, and then the ledger is closed. One edition earlier there
// are two changes left.
#[test]
fn the_last_change() {
    let mut claimed = ledger(&[light(1)], 4_294_967_294);
    grants(&mut claimed, light(2), &[light(1), light(2)]);
    let mut withdrawn = ledger(&[light(1), light(2)], 4_294_967_294);
    takes_out(&mut withdrawn, 0, &[light(2)]);
    let mut both = ledger(&[light(1)], 4_294_967_293);
    takes_out(&mut both, 0, &[]);
    grants(&mut both, light(2), &[light(2)]);
    for closed in [claimed, withdrawn, both] {
        assert_eq!(closed.edition, 4_294_967_295);
        refuses(&closed, &LIGHT, 4_294_967_295, Refusal::Closed);
        withdrawing_refuses(&closed, 0, 4_294_967_295, Refusal::Closed);
    }
}

// Refusal 10: one edition less or more, and such as have the same low bits. No edition is special.
#[test]
fn another_edition() {
    for edition in [0, 1, 64, 255, 65_535, (1 << 31) - 1, 1 << 31, LAST - 1] {
        let desk = ledger(&[light(1)], edition);
        for bit in 0..32 {
            refuses(&desk, &LIGHT, edition ^ (1 << bit), Refusal::OtherEdition);
            withdrawing_refuses(&desk, 0, edition ^ (1 << bit), Refusal::OtherEdition);
        }
        for seen in [edition.wrapping_sub(1), edition + 1, LAST] {
            refuses(&desk, &LIGHT, seen, Refusal::OtherEdition);
            withdrawing_refuses(&desk, 0, seen, Refusal::OtherEdition);
        }
        grants(&mut desk.clone(), LIGHT, &[light(1), LIGHT]);
        takes_out(&mut desk.clone(), 0, &[]);
    }
}

// Refusal 2: '64 rows held', though one more of these would pass at any place.
#[test]
fn a_full_ledger() {
    refuses(&ledger(&[LIGHT; 64], NOW), &LIGHT, NOW, Refusal::TooMany);
    grants(&mut ledger(&[LIGHT; 63], NOW), LIGHT, &[LIGHT; 64]);
}

// Refusal 8 'of the held rows plus the new one', which is tried after those held. Two rows that can
// never pass are late also at the lowest place, and light ones pass there.
#[test]
fn no_room() {
    refuses(&ledger(&[], NOW), &NEVER, NOW, no_order(1, 1));
    refuses(&ledger(&[LIGHT], NOW), &NEVER, NOW, no_order(1, 1 + 1));
    refuses(&ledger(&[NEVER, NEVER], NOW), &NEVER, NOW, no_order(3, 3));
    refuses(&ledger(&[NEVER, LIGHT, NEVER], NOW), &LIGHT, NOW, no_order(2, 2 + 3 + 2));
    // In a FIFO they are one band, whatever their number.
    let in_a_fifo = [5, 0, 10, 1000, 19, 0];
    refuses(&ledger(&[in_a_fifo, LIGHT], NOW), &in_a_fifo, NOW, no_order(1, 2 + 1));
}

// As many tries as there can be: at place p of 64 rows of C 1 the figure is 2 + p, and row i is
// allowed 2 + i. So it passes at place i, and at no lower one. With one bit time less for row 0
// all is the same, but that at place 0 it is late.
#[test]
fn no_room_for_the_last_row_of_64() {
    let mut rows: Vec<Row> = (0..64).map(|row| [0, 0, 1, 1000, 2 + row, 0]).collect();
    let last = rows[63];
    grants(&mut ledger(&rows[..63], NOW), last, &rows);
    rows[0][4] = 1;
    refuses(&ledger(&rows[..63], NOW), &last, NOW, no_order(1, 64 * 65 / 2));
}

// A lent ledger that is good but has no order: any claim gets 8, withdrawing is allowed, and with
// the cause withdrawn there is room again. The rows that never pass are late wherever they are
// tried, and of the others the first passes at the lowest place that is left.
#[test]
fn a_ledger_without_an_order() {
    let mut desk = ledger(&[NEVER, NET, NEVER], NOW);
    refuses(&desk, &LIGHT, NOW, no_order(2, 2 + 3 + 2));
    takes_out(&mut desk, 1, &[NEVER, NEVER]);
    refuses(&desk, &LIGHT, NOW + 1, no_order(2, 3 + 2));
    takes_out(&mut desk, 1, &[NEVER]);
    refuses(&desk, &LIGHT, NOW + 2, no_order(1, 2 + 1));
    takes_out(&mut desk, 0, &[]);
    grants(&mut desk, LIGHT, &[LIGHT]);
    takes_out(&mut ledger(&[NEVER; 64], NOW), 63, &[NEVER; 63]);
}

// Refusal 11: rows count from 0, and none of those behind the held ones can be withdrawn.
#[test]
fn no_such_row() {
    for held in [0, 1, 2, 63, 64] {
        let desk = ledger(&vec![LIGHT; held as usize], NOW);
        for row in [held, held + 1, 64, 65, held + 256, held + (1 << 16), 1 << 31, LAST - 1, LAST] {
            withdrawing_refuses(&desk, row, NOW, Refusal::NoSuchRow);
        }
    }
}
