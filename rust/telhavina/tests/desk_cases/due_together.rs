//! 'Checks in order' of request L4: of refusals that are due together the first is given, and the
//! ledger is left alone. Each pair that follow one another, and then every set of them.

use telhavina::{Ledger, Refusal};

use crate::{ledger, no_order, refuses, withdrawing_refuses, BAD, LAST, LIGHT, NEVER, NOW};

const BAD_CLAIM: Refusal = Refusal::BadRow { row: 0, field: 2 };

#[test]
fn bad_ledger_before_ragged() {
    for lent in [ledger(&[BAD], NOW), Ledger { held: 65, ..ledger(&[LIGHT; 64], NOW) }] {
        for length in 0..6 {
            refuses(&lent, &LIGHT[..length], NOW, Refusal::BadLedger);
        }
        refuses(&lent, &LIGHT.repeat(2), NOW, Refusal::BadLedger);
    }
}

// Some words of a row, or of two, are bad, and yet they are no bad row.
#[test]
fn ragged_before_bad_row() {
    for length in (0..6).chain(7..=12) {
        refuses(&ledger(&[], NOW), &BAD.repeat(2)[..length], NOW, Refusal::Ragged);
    }
}

// A bad claim on a closed ledger is 3.
#[test]
fn bad_row_before_closed() {
    for held in [0, 1, 64] {
        refuses(&ledger(&vec![LIGHT; held], LAST), &BAD, LAST, BAD_CLAIM);
    }
}

// A closed ledger says so to whoever saw an earlier edition.
#[test]
fn closed_before_other_edition() {
    let closed = ledger(&[LIGHT], LAST);
    for seen in [0, NOW, LAST - 2, LAST - 1] {
        refuses(&closed, &LIGHT, seen, Refusal::Closed);
        withdrawing_refuses(&closed, 0, seen, Refusal::Closed);
    }
}

#[test]
fn other_edition_before_too_many() {
    for seen in [NOW - 1, NOW + 1, LAST] {
        refuses(&ledger(&[LIGHT; 64], NOW), &LIGHT, seen, Refusal::OtherEdition);
    }
}

// With 64 rows held, no order is asked for: neither of those held nor of them and the new one.
#[test]
fn too_many_before_no_order() {
    refuses(&ledger(&[LIGHT; 64], NOW), &NEVER, NOW, Refusal::TooMany);
    refuses(&ledger(&[NEVER; 64], NOW), &LIGHT, NOW, Refusal::TooMany);
}

#[test]
fn bad_ledger_before_closed_for_withdrawing() {
    withdrawing_refuses(&ledger(&[BAD], LAST), 0, LAST, Refusal::BadLedger);
    let over = Ledger { held: 65, ..ledger(&[LIGHT; 64], LAST) };
    withdrawing_refuses(&over, 0, LAST, Refusal::BadLedger);
}

#[test]
fn other_edition_before_no_such_row() {
    for seen in [NOW - 1, NOW + 1, LAST] {
        withdrawing_refuses(&ledger(&[LIGHT], NOW), 1, seen, Refusal::OtherEdition);
        withdrawing_refuses(&ledger(&[], NOW), 0, seen, Refusal::OtherEdition);
    }
}

/// A ledger for which these refusals are due: two rows or 64, the first of which can never pass if
/// there is to be no order, and the last is bad if the ledger is to be so.
fn with_due(due: &[Refusal]) -> Ledger {
    let mut rows = vec![LIGHT; if due.contains(&Refusal::TooMany) { 64 } else { 2 }];
    if due.iter().any(|refusal| matches!(refusal, Refusal::NoOrder { .. })) {
        rows[0] = NEVER;
    }
    if due.contains(&Refusal::BadLedger) {
        *rows.last_mut().expect("two rows or more") = BAD;
    }
    ledger(&rows, if due.contains(&Refusal::Closed) { LAST } else { NOW })
}

/// Every set of these but the empty one, in the same order.
fn every_set(of: &[Refusal]) -> impl Iterator<Item = Vec<Refusal>> + '_ {
    let picked = |set: u32| move |&at: &usize| set >> at & 1 == 1;
    (1..1 << of.len()).map(move |set| (0..of.len()).filter(picked(set)).map(|at| of[at]).collect())
}

// Of the first row and the two light ones, the first is tried in vain at each place, and a light
// one passes at the lowest place and at the next: 8 carries one unplaced, and 2 + 2 + 1 tried.
#[test]
fn every_set_of_refusals_of_a_claim() {
    let order = [
        Refusal::BadLedger,
        Refusal::Ragged,
        BAD_CLAIM,
        Refusal::Closed,
        Refusal::OtherEdition,
        Refusal::TooMany,
        no_order(1, 2 + 2 + 1),
    ];
    for due in every_set(&order) {
        let desk = with_due(&due);
        let row = if due.contains(&BAD_CLAIM) { BAD } else { LIGHT };
        let lengths = if due.contains(&Refusal::Ragged) { &[0, 5, 7, 12][..] } else { &[6] };
        let other = due.contains(&Refusal::OtherEdition);
        for &length in lengths {
            let seen = desk.edition - u32::from(other);
            refuses(&desk, &row.repeat(2)[..length], seen, due[0]);
        }
    }
}

#[test]
fn every_set_of_refusals_of_a_withdrawal() {
    let order = [Refusal::BadLedger, Refusal::Closed, Refusal::OtherEdition, Refusal::NoSuchRow];
    for due in every_set(&order) {
        let desk = with_due(&due);
        let row = if due.contains(&Refusal::NoSuchRow) { desk.held } else { 0 };
        let other = due.contains(&Refusal::OtherEdition);
        withdrawing_refuses(&desk, row, desk.edition - u32::from(other), due[0]);
    }
}
