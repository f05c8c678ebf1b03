//! The library against the second program, over made-up tables: the reply, what it carries, and
//! every word of the lent list must be the same. `-- --nocapture` shows how often each reply
//! kind came up.

mod compare;
mod tally;

use compare::{kind, number, refused, same, Outcome};
use second::Reply;
use tables::{boundary_rows, Case, Prng};
use tally::Tally;
use telhavina::Judgement;

/// Made-up cases; their seeds are 0 to one less.
const CASES: u64 = 100_000;
/// How often each reply kind must come up at least.
const LEAST: u32 = 100;
/// Passed, late, and refusals 1 to 7.
const KINDS: usize = 9;

/// The library's judgement as the second program would say it.
fn as_reply(judgement: Judgement) -> Reply {
    match judgement {
        Judgement::Passed => Reply::Passed,
        Judgement::Late { place } => Reply::Late(number(place)),
        Judgement::Refused(refusal) => refused(refusal),
    }
}

/// Both programs give the same reply and leave the same lent list: these are given back.
#[track_caller]
fn agreed(case: &Case) -> Outcome {
    let (mut figures, mut expected) = (case.figures.clone(), case.figures.clone());
    let reply = as_reply(telhavina::judge(&case.table, &case.order, &mut figures));
    let expected_reply = second::judge(&case.table, &case.order, &mut expected);
    same(case, (reply, figures), (expected_reply, expected))
}

#[test]
fn made_up_tables() {
    let mut tally = Tally::default();
    for case in (0..CASES).map(tables::case) {
        tally.count(kind(agreed(&case).0));
    }
    tally.print("made-up tables");
    tally.has(KINDS, LEAST);
}

// 'R no more than the least E': deadlines that are just enough for the figures pass, and one bit
// time less in one row makes its band late.
#[test]
fn deadlines_just_enough_and_one_bit_time_less() {
    let mut tally = Tally::default();
    for case in (0..CASES).map(tables::case) {
        let mut figures = case.figures.clone();
        if second::judge(&case.table, &case.order, &mut figures) != Reply::Passed {
            continue;
        }
        let just_enough = agreed(&case.tightened(&figures, None));
        let late_row = Prng::new(case.seed).below(case.order.len());
        let one_less = agreed(&case.tightened(&figures, Some(late_row)));
        assert_eq!(just_enough, (Reply::Passed, figures), "{case}");
        assert_eq!(one_less.1[late_row], 0, "{case}");
        tally.count(kind(just_enough.0));
        tally.count(kind(one_less.0));
    }
    tally.print("deadlines just enough and one bit time less");
}

#[test]
fn every_boundary_of_every_field() {
    let mut tally = Tally::default();
    for row in boundary_rows() {
        tally.count(kind(agreed(&Case::of_one_row(row)).0));
    }
    tally.print("rows at the ends of their fields");
}
