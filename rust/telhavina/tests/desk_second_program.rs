//! The claim desk of the library and that of the second program, over made-up histories: after
//! every call the reply, what it carries, and the whole ledger must be the same, down to the words
//! that stand behind the held rows. What a desk that started fresh holds, the library's own finder
//! and judge must pass; and room is granted just where they find an order. `-- --nocapture` shows
//! how often each reply kind came up.

mod compare;
mod desks;
mod tally;

use std::fmt::Display;

use compare::{kind, refused};
use desks::{Asked, Desks, LAST};
use second::Reply;
use tables::{find_case, history, FindCase, History, Prng};
use tally::Tally;
use telhavina::{Finding, Judgement};

/// Made-up histories of 40 calls; their seeds are 0 to one less.
const HISTORIES: u64 = 20_000;
/// How often each reply kind must come up at least, to claims and to withdrawals.
const LEAST: u32 = 1_000;
/// Granted; refusals 23, 1, 3, 9, 10 and 2; and refusal 8 at the lowest place and at a higher one.
const CLAIM_KINDS: usize = 9;
/// Withdrawn, and refusals 23, 9, 10 and 11.
const WITHDRAWAL_KINDS: usize = 5;
/// Made-up tables of which ledgers are made; their seeds are 0 to one less.
const TABLES: u64 = 20_000;

/// The figures by row of the order that the library finds, if there is one; its judge passes it.
#[track_caller]
fn figures_found(table: &[u32], case: &impl Display) -> Result<Vec<u32>, Reply> {
    let (mut order, mut figures) = (vec![0; table.len() / 6], vec![0; table.len() / 6]);
    match telhavina::find(table, &mut order) {
        Finding::Found { .. } => {
            let judgement = telhavina::judge(table, &order, &mut figures);
            assert_eq!(judgement, Judgement::Passed, "{case}\n{order:?}");
            Ok(figures)
        }
        Finding::Refused(refusal) => Err(refused(refusal)),
    }
}

#[test]
fn made_up_histories() {
    let (mut claims, mut withdrawals) = (Tally::default(), Tally::default());
    for history in (0..HISTORIES).map(history) {
        let mut desks = Desks::at_the_start(&history);
        for call in &history.calls {
            let asked = desks.asked(call);
            let reply = desks.put(&asked, &history);
            match asked {
                Asked::Claim { .. } => claims.count(kind(reply)),
                Asked::Withdrawal { .. } => withdrawals.count(kind(reply)),
            }
        }
    }
    claims.print("claims");
    withdrawals.print("withdrawals");
    claims.has(CLAIM_KINDS, LEAST);
    withdrawals.has(WITHDRAWAL_KINDS, LEAST);
}

// 'After any sequence of calls on a fresh desk the ledger holds the granted rows less the
// withdrawn, in order, and an order for it exists, if it holds any row.' The edition says how often
// it has changed.
#[test]
fn fresh_desks() {
    let mut tally = Tally::default();
    let is_fresh = |history: &History| (history.start.held, history.start.edition) == (0, 0);
    for history in (0..HISTORIES).map(history).filter(is_fresh) {
        let mut desks = Desks::at_the_start(&history);
        let (mut rows, mut changes) = (Vec::new(), 0);
        for call in &history.calls {
            let asked = desks.asked(call);
            match (desks.put(&asked, &history), asked) {
                (Reply::Granted(_), Asked::Claim { row, .. }) => rows.push(row),
                (Reply::Withdrawn(_), Asked::Withdrawal { row, .. }) => {
                    rows.remove(row as usize);
                }
                _ => continue,
            }
            changes += 1;
            assert_eq!(desks.library.rows(), rows.concat(), "{history}");
            assert_eq!(desks.library.edition, changes, "{history}");
            if rows.is_empty() {
                tally.count("no row held");
                continue;
            }
            let found = figures_found(desks.library.rows(), &history);
            assert!(found.is_ok(), "{found:?} in {history}");
            tally.count("rows held, and an order");
        }
        assert_eq!(desks.library.edition, changes, "{history}");
    }
    tally.print("changes at desks that started fresh");
    tally.has(2, LEAST);
}

// 'Of two claims for one edition at most one is granted': of any two calls that name one edition
// at most one changes the ledger, for the same call once more changes nothing.
#[test]
fn the_same_call_once_more() {
    let mut tally = Tally::default();
    for history in (0..HISTORIES).map(history) {
        let mut desks = Desks::at_the_start(&history);
        for call in &history.calls {
            let asked = desks.asked(call);
            if let Reply::Granted(edition) | Reply::Withdrawn(edition) = desks.put(&asked, &history)
            {
                let again = desks.clone().put(&asked, &history);
                let due = if edition == LAST { Reply::Closed } else { Reply::OtherEdition };
                assert_eq!(again, due, "{asked:?} in {history}");
                tally.count(kind(again));
            }
        }
    }
    tally.print("the same call after a change");
    tally.has(2, LEAST);
}

/// Tables of 1 to 64 rows, none of them bad.
fn good_tables() -> impl Iterator<Item = FindCase> {
    let found = |case: &FindCase| second::find(&case.table, &mut [0; 64]);
    let is_good =
        move |case: &FindCase| matches!(found(case), Reply::Found(_) | Reply::NoOrder { .. });
    (0..TABLES).map(find_case).filter(is_good)
}

/// What becomes of the claim of the table's last row where all others are held: there is room for
/// it just if an order of the whole table is found. The figures of that order are given back.
#[track_caller]
fn claimed_last(case: &FindCase, tally: &mut Tally) -> Option<Vec<u32>> {
    let (held, row) = case.table.split_at(case.table.len() - 6);
    let mut desks = Desks::holding(held, &mut Prng::new(case.seed));
    let edition = desks.library.edition;
    let reply = desks.put(&Asked::Claim { row, edition }, case);
    let found = figures_found(&case.table, case);
    let due = found.as_ref().map_or_else(|&none| none, |_| Reply::Granted(edition + 1));
    assert_eq!(reply, due, "{case}");
    tally.count(kind(reply));
    found.ok()
}

// 'No order for held rows plus this one (8)': with deadlines that are just enough for the order
// found there is still room, and with one bit time less in one row, held or claimed, there is none.
#[test]
fn the_last_row_of_a_table() {
    let mut tally = Tally::default();
    let mut tight_tally = Tally::default();
    for case in good_tables() {
        let Some(figures) = claimed_last(&case, &mut tally) else { continue };
        let just_enough = claimed_last(&case.tightened(&figures, None), &mut tight_tally);
        assert_eq!(just_enough.as_ref(), Some(&figures), "{case}");
        let short_row = Prng::new(case.seed).below(figures.len());
        let one_less = claimed_last(&case.tightened(&figures, Some(short_row)), &mut tight_tally);
        assert_eq!(one_less, None, "{case}");
    }
    tally.print("claims of the last row of a table");
    tight_tally.print("deadlines just enough and one bit time less");
    tally.has(3, LEAST);
    tight_tally.has(3, LEAST);
}

// '64 rows held (2)' comes before any look for an order: the held rows, those of a table again and
// again, may have one or not.
#[test]
fn full_desks() {
    let mut tally = Tally::default();
    for case in good_tables() {
        let rows: Vec<u32> = case.table.iter().copied().cycle().take(64 * 6).collect();
        let mut desks = Desks::holding(&rows, &mut Prng::new(case.seed));
        let edition = desks.library.edition;
        let claim = Asked::Claim { row: &rows[..6], edition };
        assert_eq!(desks.put(&claim, &case), Reply::TooMany, "{case}");
        let withdrawal = Asked::Withdrawal { row: 63, edition };
        assert_eq!(desks.put(&withdrawal, &case), Reply::Withdrawn(edition + 1), "{case}");
        tally.count(if figures_found(&rows, &case).is_ok() { "an order" } else { "no order" });
    }
    tally.print("full ledgers");
    tally.has(2, LEAST);
}
