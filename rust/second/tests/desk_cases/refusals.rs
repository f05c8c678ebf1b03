//! Every refusal, with each of those that come after it due as well.

use second::desk::Ledger;
use second::Reply;

use crate::{
    grants, ledger, refuses_claim, refuses_withdrawal, takes_out, tight, BAD, HOPELESS, LAST,
    LIGHT, NOW,
};

// Refusal 23: 'over the row limit or holding a bad row', before all others.
#[test]
fn bad_ledgers() {
    let full = ledger(&[LIGHT; 64], NOW);
    let over = [65, 66, 256, 1 << 16, LAST].map(|held| Ledger { held, ..full.clone() });
    let bad_rows = [
        BAD,
        [0, 3, 8, 100, 100, 0],
        [0, 1, 9, 100, 100, 0],
        [0, 0, 10, 0, 100, 0],
        [0, 0, 10, 100, 101, 0],
        [0, 0, 10, 100, 100, 101],
    ];
    let first = bad_rows.map(|bad| ledger(&[bad, LIGHT], NOW));
    let last = bad_rows.map(|bad| ledger(&[LIGHT, bad], NOW));
    let in_a_full_one = ledger(&[&[LIGHT; 63][..], &[BAD]].concat(), NOW);
    let all = over.into_iter().chain(first).chain(last).chain([in_a_full_one]);
    for edition in [NOW, LAST] {
        for bad in all.clone().map(|bad| Ledger { edition, ..bad }) {
            for row in [&LIGHT[..], &LIGHT[..5], &[], &BAD, &HOPELESS] {
                refuses_claim(&bad, row, edition, Reply::BadLedger);
                refuses_claim(&bad, row, edition - 1, Reply::BadLedger);
            }
            for row in [0, 64, LAST] {
                refuses_withdrawal(&bad, row, edition, Reply::BadLedger);
                refuses_withdrawal(&bad, row, edition - 1, Reply::BadLedger);
            }
        }
    }
    // A bad row right behind the held ones is none of theirs.
    let behind = Ledger { held: 1, ..ledger(&[LIGHT, BAD], NOW) };
    grants(&mut behind.clone(), LIGHT, &[LIGHT, LIGHT]);
    takes_out(&mut behind.clone(), 0, &[]);
}

// Refusal 1 before 3, 9, 10, 2 and 8.
#[test]
fn other_numbers_of_words() {
    let words = [BAD, HOPELESS].concat();
    for ledger in [ledger(&[], NOW), ledger(&[LIGHT; 64], NOW), ledger(&[], LAST)] {
        for count in [0, 1, 5, 7, 11, 12] {
            refuses_claim(&ledger, &words[..count], NOW, Reply::Ragged);
            refuses_claim(&ledger, &words[12 - count..], NOW - 1, Reply::Ragged);
        }
    }
}

// Refusal 3 before 9, 10 and 2; the row is 0 whatever is held.
#[test]
fn bad_claims() {
    let bad = [
        (BAD, 1),
        ([64, 3, 10, 0, 0, 0], 2),
        ([0, 0, 4_097, 0, 0, 0], 3),
        ([1, 2, 8, 1_000_001, 0, 0], 4),
        ([1, 1, 0, 100, 0, 0], 5),
        ([0, 0, 1, 100, 50, 51], 6),
    ];
    for (row, field) in bad {
        let reply = Reply::BadRow { row: 0, field };
        for held in [0, 1, 64] {
            refuses_claim(&ledger(&vec![LIGHT; held], NOW), &row, NOW, reply);
            refuses_claim(&ledger(&vec![LIGHT; held], NOW), &row, NOW + 1, reply);
            refuses_claim(&ledger(&vec![LIGHT; held], LAST), &row, LAST, reply);
        }
    }
}

// Refusal 9 before 10, 2, 8 and 11.
#[test]
fn closed_ledgers() {
    for rows in [&[][..], &[LIGHT], &[LIGHT; 64], &[HOPELESS]] {
        let closed = ledger(rows, LAST);
        for seen in [LAST, LAST - 1, 0] {
            refuses_claim(&closed, &LIGHT, seen, Reply::Closed);
            refuses_claim(&closed, &HOPELESS, seen, Reply::Closed);
            refuses_withdrawal(&closed, 0, seen, Reply::Closed);
            refuses_withdrawal(&closed, 64, seen, Reply::Closed);
        }
    }
}

// Refusal 10 before 2, 8 and 11.
#[test]
fn other_editions() {
    for seen in [0, NOW - 1, NOW + 1, NOW + 256, NOW + (1 << 16), NOW + (1 << 31), LAST] {
        for rows in [&[][..], &[LIGHT], &[LIGHT; 64]] {
            refuses_claim(&ledger(rows, NOW), &LIGHT, seen, Reply::OtherEdition);
            refuses_claim(&ledger(rows, NOW), &HOPELESS, seen, Reply::OtherEdition);
            refuses_withdrawal(&ledger(rows, NOW), 0, seen, Reply::OtherEdition);
            refuses_withdrawal(&ledger(rows, NOW), 64, seen, Reply::OtherEdition);
        }
    }
}

// Refusal 2 before 8.
#[test]
fn full_ledgers() {
    refuses_claim(&ledger(&[LIGHT; 64], NOW), &LIGHT, NOW, Reply::TooMany);
    refuses_claim(&ledger(&[LIGHT; 64], NOW), &HOPELESS, NOW, Reply::TooMany);
    refuses_claim(&ledger(&[HOPELESS; 64], NOW), &LIGHT, NOW, Reply::TooMany);
}

// Refusal 8: of the four tight rows none passes at the last place that is left. The new row is
// tried last, and at the lowest place it is the light one that passes.
#[test]
fn no_order() {
    let none = |unplaced: u32, tried: u32| Reply::NoOrder { unplaced, tried };
    let [a, b, c, d] = [0, 1, 2, 3].map(tight);
    refuses_claim(&ledger(&[], NOW), &HOPELESS, NOW, none(1, 1));
    refuses_claim(&ledger(&[a, b, c], NOW), &d, NOW, none(4, 4));
    refuses_claim(&ledger(&[a, b, LIGHT, c], NOW), &d, NOW, none(4, 3 + 4));
    refuses_claim(&ledger(&[LIGHT, a, b, c], NOW), &d, NOW, none(4, 1 + 4));
}

// Refusal 11: rows count from 0.
#[test]
fn no_such_row() {
    for held in [0, 1, 63, 64] {
        for row in [held, held + 1, 65, 1 << 31, LAST] {
            let rows = vec![LIGHT; held as usize];
            refuses_withdrawal(&ledger(&rows, NOW), row, NOW, Reply::NoSuchRow);
        }
    }
}
