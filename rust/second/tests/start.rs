//! The second program with the start of request L3 and with the one before: 'Replies, figures and
//! the number of bands tried stay as promised.'

use second::{find, judge, old_start, Reply};
use tables::{case, families, find_case, find_families, Case, FindCase};

/// Made-up cases of each kind; their seeds are 0 to one less.
const CASES: u64 = 40_000;
/// How often each of passed, late, found and no order must have come up.
const ENOUGH: u32 = 4_000;
/// Tables of 64 rows in each family.
const IN_FAMILY: u64 = 200;

/// The reply and the figures that both starts give for this case.
fn judged(case: &Case) -> (Reply, Vec<u32>) {
    let (mut figures, mut before) = (case.figures.clone(), case.figures.clone());
    let reply = judge(&case.table, &case.order, &mut figures);
    let reply_before = old_start::judge(&case.table, &case.order, &mut before);
    assert_eq!((reply, &figures), (reply_before, &before), "{case}");
    (reply, figures)
}

/// The reply that both starts give for this case, with the same words lent for the order.
fn found(case: &FindCase) -> Reply {
    let (mut order, mut before) = (case.order.clone(), case.order.clone());
    let reply = find(&case.table, &mut order);
    let reply_before = old_start::find(&case.table, &mut before);
    assert_eq!((reply, order), (reply_before, before), "{case}");
    reply
}

#[test]
fn judging() {
    let (mut passed, mut late) = (0, 0);
    for case in (0..CASES).map(case) {
        match judged(&case).0 {
            Reply::Passed => passed += 1,
            Reply::Late(_) => late += 1,
            _ => {}
        }
    }
    println!("judging: {passed} passed, {late} late, of {CASES}");
    assert!(passed >= ENOUGH && late >= ENOUGH, "too few of one kind");
}

#[test]
fn finding() {
    let (mut with_order, mut none) = (0, 0);
    for case in (0..CASES).map(find_case) {
        match found(&case) {
            Reply::Found(_) => with_order += 1,
            Reply::NoOrder { .. } => none += 1,
            _ => {}
        }
    }
    println!("finding: {with_order} with an order, {none} without, of {CASES}");
    assert!(with_order >= ENOUGH && none >= ENOUGH, "too few of one kind");
}

// Every w is then the latest allowed, and for the band of the row picked it is one past that.
#[test]
fn just_enough_time_and_just_too_little() {
    let mut passed = 0;
    for case in (0..CASES).map(case) {
        let (Reply::Passed, figures) = judged(&case) else { continue };
        passed += 1;
        let tight = case.tightened(&figures, None);
        assert_eq!(judged(&tight), (Reply::Passed, figures.clone()), "{tight}");
        let row = case.seed as usize % case.order.len();
        let too_tight = case.tightened(&figures, Some(row));
        let (reply, figures) = judged(&too_tight);
        assert!(matches!(reply, Reply::Late(_)) && figures[row] == 0, "{too_tight}");
    }
    println!("{passed} tables made tight");
    assert!(passed >= ENOUGH, "too few that pass");
}

// The tables that both starts are measured with.
#[test]
fn tables_of_64_rows() {
    for family in families(IN_FAMILY) {
        for case in &family.cases {
            assert!(matches!(judged(case).0, Reply::Passed | Reply::Late(_)), "{case}");
        }
    }
    for family in find_families(IN_FAMILY) {
        for case in &family.cases {
            assert!(matches!(found(case), Reply::Found(_) | Reply::NoOrder { .. }), "{case}");
        }
    }
}
