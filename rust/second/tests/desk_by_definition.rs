//! The claim desk of the second program against the words of request L4, over made-up histories: a
//! model that keeps a list of rows, and what is promised of any sequence of calls. The finder of the
//! same program says which rows are bad and which have an order.

use std::collections::{BTreeMap, BTreeSet};

use second::desk::{claim, withdraw, Ledger};
use second::{find, Reply};
use tables::{history, Call, History, Seen};

/// Made-up histories; their seeds are 0 to one less.
const HISTORIES: u64 = 2_000;
/// How often each reply must have come up, to claims and to withdrawals.
const ENOUGH: u32 = 1_000;
/// How often a row must have been granted that had been refused for each want of room.
const ENOUGH_LATER: u32 = 100;
/// The numbers of the replies to a claim, and to a withdrawal.
const TO_CLAIMS: [u32; 8] = [1, 2, 3, 8, 9, 10, 23, 105];
const TO_WITHDRAWALS: [u32; 5] = [9, 10, 11, 23, 106];

/// A call with its numbers, as it is put to the ledger.
#[derive(Debug)]
enum Asked {
    Claim { row: Vec<u32>, edition: u32 },
    Withdrawal { row: u32, edition: u32 },
}

impl Asked {
    fn of(call: &Call, ledger: &Ledger) -> Asked {
        let edition = |seen: &Seen| seen.edition(ledger.edition);
        match call {
            Call::Claim { row, seen } => Asked::Claim { row: row.clone(), edition: edition(seen) },
            Call::Withdrawal { row, seen } => {
                Asked::Withdrawal { row: row.row(ledger.held), edition: edition(seen) }
            }
        }
    }

    fn edition(&self) -> u32 {
        match *self {
            Asked::Claim { edition, .. } | Asked::Withdrawal { edition, .. } => edition,
        }
    }

    fn put(&self, ledger: &mut Ledger) -> Reply {
        match self {
            Asked::Claim { row, edition } => claim(ledger, row, *edition),
            Asked::Withdrawal { row, edition } => withdraw(ledger, *row, *edition),
        }
    }
}

/// The history's start as a ledger.
fn start(history: &History) -> Ledger {
    let start = &history.start;
    Ledger { words: start.words, held: start.held, edition: start.edition }
}

/// Puts the calls of each history to its ledger, and gives `check` the history, the ledger before
/// the call, the call, the reply and the ledger after it.
fn each_call(mut check: impl FnMut(&History, &Ledger, &Asked, Reply, &Ledger)) {
    for history in (0..HISTORIES).map(history) {
        let mut ledger = start(&history);
        for call in &history.calls {
            let before = ledger.clone();
            let asked = Asked::of(call, &before);
            let reply = asked.put(&mut ledger);
            check(&history, &before, &asked, reply, &ledger);
        }
    }
}

/// What the finder says of these words.
fn found(words: &[u32]) -> Reply {
    find(words, &mut [0; 64])
}

/// Whether the call changed the ledger.
fn changed(reply: Reply) -> bool {
    matches!(reply, Reply::Granted(_) | Reply::Withdrawn(_))
}

/// The rows that the ledger holds, if they are at most 64 and none is bad.
fn held_rows(ledger: &Ledger) -> Option<Vec<Vec<u32>>> {
    let rows: Vec<Vec<u32>> = ledger.words.chunks(6).map(<[u32]>::to_vec).collect();
    let held = rows.get(..ledger.held as usize)?;
    let bad = |row: &Vec<u32>| matches!(found(row), Reply::BadRow { .. });
    (!held.iter().any(bad)).then(|| held.to_vec())
}

/// The reply that is due, and the rows that are held after it if they change.
fn due(before: &Ledger, asked: &Asked) -> (Reply, Option<Vec<Vec<u32>>>) {
    let Some(mut rows) = held_rows(before) else { return (Reply::BadLedger, None) };
    if let Asked::Claim { row, .. } = asked {
        match found(row) {
            _ if row.len() != 6 => return (Reply::Ragged, None),
            bad @ Reply::BadRow { .. } => return (bad, None),
            _ => {}
        }
    }
    if before.edition == 4_294_967_295 {
        return (Reply::Closed, None);
    }
    if asked.edition() != before.edition {
        return (Reply::OtherEdition, None);
    }
    match asked {
        Asked::Claim { .. } if rows.len() == 64 => (Reply::TooMany, None),
        Asked::Claim { row, .. } => {
            rows.push(row.clone());
            match found(&rows.concat()) {
                Reply::Found(_) => (Reply::Granted(before.edition + 1), Some(rows)),
                none => (none, None),
            }
        }
        Asked::Withdrawal { row, .. } if *row as usize >= rows.len() => (Reply::NoSuchRow, None),
        Asked::Withdrawal { row, .. } => {
            rows.remove(*row as usize);
            (Reply::Withdrawn(before.edition + 1), Some(rows))
        }
    }
}

// A refusal alters nothing; a change leaves the words behind the rows as they were.
#[test]
fn call_by_call_like_a_list_of_rows() {
    let mut counts = BTreeMap::new();
    each_call(|history, before, asked, reply, after| {
        let (expected_reply, rows) = due(before, asked);
        let mut expected = before.clone();
        if let Some(rows) = rows {
            expected.words[..6 * rows.len()].copy_from_slice(&rows.concat());
            expected.held = rows.len() as u32;
            expected.edition += 1;
        }
        assert_eq!((reply, after), (expected_reply, &expected), "{asked:?} in {history}");
        let to_claim = matches!(asked, Asked::Claim { .. });
        *counts.entry((to_claim, reply.number())).or_insert(0) += 1;
    });
    println!("to a claim (true) or a withdrawal, by number: {counts:?}");
    let known = TO_WITHDRAWALS.map(|number| (false, number)).into_iter();
    let known: Vec<_> = known.chain(TO_CLAIMS.map(|number| (true, number))).collect();
    assert_eq!(counts.keys().copied().collect::<Vec<_>>(), known);
    assert!(counts.values().all(|&count| count >= ENOUGH), "too few of one kind");
}

// 'After any sequence of calls on a fresh desk' there is an order, 'if it holds any row', and the
// edition says how many changes there were.
#[test]
fn a_fresh_desk_always_has_an_order() {
    let (mut changes, mut with_rows, mut without) = (0, 0, 0);
    each_call(|history, before, _, reply, after| {
        if start(history) != Ledger::fresh() {
            return;
        }
        if *before == Ledger::fresh() {
            changes = 0;
        }
        changes += u32::from(changed(reply));
        assert_eq!(after.edition, changes, "{history}");
        if after.held == 0 {
            without += 1;
            return;
        }
        with_rows += 1;
        let reply = found(&after.words[..6 * after.held as usize]);
        assert!(matches!(reply, Reply::Found(_)), "{reply:?} in {history}");
    });
    println!("on fresh desks: {with_rows} calls left a row held, {without} none");
    assert!(with_rows >= 20_000 && without >= ENOUGH, "too few of one kind");
}

// 'Of two claims for one edition at most one is granted', and indeed of any two calls.
#[test]
fn one_edition_is_used_once() {
    let (mut used, mut seed, mut second_refused) = (BTreeSet::new(), None, 0);
    each_call(|history, _, asked, reply, after| {
        if seed.replace(history.seed) != Some(history.seed) {
            used.clear();
        }
        if changed(reply) {
            assert!(used.insert(asked.edition()), "{asked:?} in {history}");
            // The same call once more, as if two had sent it.
            assert!(!changed(asked.put(&mut after.clone())), "{asked:?} in {history}");
            second_refused += 1;
        }
    });
    println!("{second_refused} calls refused after one for the same edition");
    assert!(second_refused >= 20_000, "too few calls were answered");
}

// 'So the room can be claimed again': a row that was refused for want of room is granted after a
// withdrawal from the same ledger.
#[test]
fn withdrawing_makes_room() {
    let (mut refused, mut withdrawn) = (BTreeMap::new(), 0);
    let mut granted_later = [0, 0];
    each_call(|history, _, asked, reply, _| match (asked, reply) {
        (_, Reply::Withdrawn(_)) => withdrawn += 1,
        (Asked::Claim { row, .. }, Reply::TooMany | Reply::NoOrder { .. }) => {
            let full = usize::from(reply == Reply::TooMany);
            refused.insert((history.seed, row.clone()), (full, withdrawn));
        }
        (Asked::Claim { row, .. }, Reply::Granted(_)) => {
            if let Some((full, before)) = refused.remove(&(history.seed, row.clone())) {
                assert!(withdrawn > before, "{asked:?} in {history}");
                granted_later[full] += 1;
            }
        }
        _ => {}
    });
    println!("granted after a withdrawal: {granted_later:?} that had been refused with 8 and 2");
    assert!(granted_later.iter().all(|&count| count >= ENOUGH_LATER), "too few of one kind");
}
