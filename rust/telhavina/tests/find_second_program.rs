//! Finding, by the library and by the second program, over made-up tables: the reply, what it
//! carries, and every word of the lent list must be the same; and the library's own judge must
//! pass what is found, and nothing where no order is. `-- --nocapture` shows how often each reply
//! kind came up.

mod compare;
mod tally;

use compare::{kind, number, refused, same, Outcome};
use second::Reply;
use tables::{bands, boundary_rows, every_order, find_case, FindCase, Prng};
use tally::Tally;
use telhavina::{Finding, Judgement};

/// Made-up cases; their seeds are 0 to one less.
const CASES: u64 = 50_000;
/// How often each reply kind must come up at least.
const LEAST: u32 = 1_000;
/// Found, refusals 1 to 4, and refusal 8 at the lowest place and at a higher one.
const KINDS: usize = 7;
/// Most bands whose every order is judged.
const FEW: usize = 6;
/// What a word lent for figures holds before the call, and how many there are to spare.
const LENT: u32 = 0xC0DE_C0DE;
const SPARE: usize = 5;

/// The library's finding as the second program would say it.
fn as_reply(finding: Finding) -> Reply {
    match finding {
        Finding::Found { tried } => Reply::Found(number(tried)),
        Finding::Refused(refusal) => refused(refusal),
    }
}

/// Both programs give the same reply and leave the same lent list: these are given back.
#[track_caller]
fn agreed(case: &FindCase) -> Outcome {
    let (mut order, mut expected) = (case.order.clone(), case.order.clone());
    let reply = as_reply(telhavina::find(&case.table, &mut order));
    let expected_reply = second::find(&case.table, &mut expected);
    same(case, (reply, order), (expected_reply, expected))
}

/// The figures of this order by row, if the library's judge passes it.
fn passed(case: &FindCase, order: &[u32]) -> Option<Vec<u32>> {
    let mut figures = vec![LENT; order.len() + SPARE];
    let judgement = telhavina::judge(&case.table, order, &mut figures);
    assert_eq!(figures.split_off(order.len()), [LENT; SPARE], "{case}");
    (judgement == Judgement::Passed).then_some(figures)
}

#[test]
fn made_up_tables() {
    let mut tally = Tally::default();
    for case in (0..CASES).map(find_case) {
        let (reply, order) = agreed(&case);
        if let Reply::Found(_) = reply {
            assert!(passed(&case, &order[..case.table.len() / 6]).is_some(), "{case}\n{order:?}");
        }
        tally.count(kind(reply));
    }
    tally.print("made-up tables");
    tally.has(KINDS, LEAST);
}

// With deadlines that are just enough for the order found, each band is late at any lower place:
// that order is the only one, and with one bit time less in one row there is none.
#[test]
fn deadlines_just_enough_and_one_bit_time_less() {
    let mut tally = Tally::default();
    for case in (0..CASES).map(find_case) {
        let (Reply::Found(_), order) = agreed(&case) else { continue };
        let n = case.table.len() / 6;
        let figures = passed(&case, &order[..n]).expect("an order that is found passes");
        let just_enough = agreed(&case.tightened(&figures, None));
        let short_row = Prng::new(case.seed).below(n);
        let one_less = agreed(&case.tightened(&figures, Some(short_row)));
        assert!(matches!(just_enough.0, Reply::Found(_)) && just_enough.1 == order, "{case}");
        assert!(matches!(one_less.0, Reply::NoOrder { .. }), "{case}");
        tally.count(kind(just_enough.0));
        tally.count(kind(one_less.0));
    }
    tally.print("deadlines just enough and one bit time less");
}

#[test]
fn every_boundary_of_every_field() {
    let mut tally = Tally::default();
    for row in boundary_rows() {
        tally.count(kind(agreed(&FindCase::of_one_row(row)).0));
    }
    tally.print("rows at the ends of their fields");
}

// Demand 2: 'no order' exactly when no order that keeps each FIFO queue together passes. Of those
// that pass, the rule gives the first as they are counted out from the lowest place up.
#[test]
fn every_order_of_a_few_bands() {
    let mut tally = Tally::default();
    for case in (0..CASES).map(find_case) {
        let mut order = case.order.clone();
        let reply = as_reply(telhavina::find(&case.table, &mut order));
        if !matches!(reply, Reply::Found(_) | Reply::NoOrder { .. }) {
            continue;
        }
        let bands = bands(&case.table);
        if bands.len() > FEW {
            continue;
        }
        let first = every_order(&bands).into_iter().find(|order| passed(&case, order).is_some());
        assert_eq!(matches!(reply, Reply::Found(_)), first.is_some(), "{case}");
        if let Some(first) = first {
            assert_eq!(order[..first.len()], first, "{case}");
        }
        tally.count(kind(reply));
    }
    tally.print("tables of a few bands, every order judged");
    tally.has(3, LEAST);
}
