//! Claims and withdrawals made by hand after request L4, put to the library across the C boundary.
//! Every word of the ledger is looked at, those behind the held rows too.

#[path = "desk_cases/due_together.rs"]
mod due_together;
#[path = "desk_cases/refusals.rs"]
mod refusals;

use telhavina::{claim, judge, withdraw, Claim, Judgement, Ledger, Refusal, Withdrawal};

/// The edition of most ledgers here, and the one at which a ledger is closed.
const NOW: u32 = 7;
const LAST: u32 = 4_294_967_295;

type Row = [u32; 6];

/// A row of little length that is allowed much time: of 64 of these each passes at any place.
const LIGHT: Row = [0, 0, 10, 100_000, 100_000, 0];
/// A row that can never pass, as 2C is 20.
const NEVER: Row = [0, 0, 10, 1000, 19, 0];
/// A row whose form is bad, and its size, period and deadline too.
const BAD: Row = [0, 3, 0, 0, 0, 0];

/// Messages of one boat, and what each is allowed.
const RUDDER: Row = [0, 0, 125, 1000, 350, 0];
const NET: Row = [0, 0, 125, 1000, 1000, 0];
const WINCH: Row = [0, 0, 125, 1000, 400, 0];
const SONAR: Row = [0, 0, 100, 1000, 400, 0];

/// A light row that can be told from others like it.
fn light(number: u32) -> Row {
    [number % 2, 0, 10, 100_000 + number, 100_000, number]
}

/// These rows in this edition; behind them each place has a word of its own.
fn ledger(rows: &[Row], edition: u32) -> Ledger {
    let mut words = std::array::from_fn(|place| 0xC0DE_0000 + place as u32);
    words[..6 * rows.len()].copy_from_slice(rows.as_flattened());
    Ledger { words, held: rows.len() as u32, edition }
}

/// The same ledger after one more change, with these rows in front and all other words as they
/// were.
fn changed(ledger: &Ledger, rows: &[Row]) -> Ledger {
    let mut words = ledger.words;
    words[..6 * rows.len()].copy_from_slice(rows.as_flattened());
    Ledger { words, held: rows.len() as u32, edition: ledger.edition + 1 }
}

/// The claim is granted to one who saw the ledger's edition; then these are the rows.
#[track_caller]
fn grants(ledger: &mut Ledger, row: Row, rows: &[Row]) {
    let expected = changed(ledger, rows);
    let reply = claim(ledger, &row, ledger.edition);
    assert_eq!(reply, Claim::Granted { edition: expected.edition });
    assert_eq!(*ledger, expected);
    assert_eq!(ledger.rows(), rows.as_flattened());
}

/// The row is taken out for one who saw the ledger's edition; then these are the rows.
#[track_caller]
fn takes_out(ledger: &mut Ledger, row: u32, rows: &[Row]) {
    let expected = changed(ledger, rows);
    let reply = withdraw(ledger, row, ledger.edition);
    assert_eq!(reply, Withdrawal::Withdrawn { edition: expected.edition });
    assert_eq!(*ledger, expected);
    assert_eq!(ledger.rows(), rows.as_flattened());
}

/// The claim of one who saw this edition is refused so, and no word of the ledger is altered.
#[track_caller]
fn refuses(ledger: &Ledger, row: &[u32], seen: u32, refusal: Refusal) {
    let mut lent = ledger.clone();
    assert_eq!(claim(&mut lent, row, seen), Claim::Refused(refusal));
    assert_eq!(lent, *ledger);
}

/// So is the withdrawal.
#[track_caller]
fn withdrawing_refuses(ledger: &Ledger, row: u32, seen: u32, refusal: Refusal) {
    let mut lent = ledger.clone();
    assert_eq!(withdraw(&mut lent, row, seen), Withdrawal::Refused(refusal));
    assert_eq!(lent, *ledger);
}

fn no_order(unplaced: usize, tried: usize) -> Refusal {
    Refusal::NoOrder { unplaced, tried }
}

// Request L4: the bus has room for one more message, and two captains claim it. All periods are
// 1000 and every w is less than that, so each row above counts once.
//
// With rudder, net and winch, the rudder is late at the lowest place, 125 + 250 + 125 = 500, and
// the net passes there. Next the rudder is late with 125 + 125 + 125 = 375, the winch passes with
// 375, and then the rudder with 125 + 125 = 250.
//
// With the sonar as well the net has 125 + 350 + 125 = 600 at the lowest place, again after the
// rudder. Next all three are late, each with 475: rudder and winch with 125 + 225 + 125, the sonar
// with 125 + 250 + 100.
//
// With the sonar and without the winch, the net has 475 at the lowest place; the rudder passes
// next with 125 + 100 + 125 = 350, which is all it is allowed, and the sonar with 125 + 100.
#[test]
fn the_last_room_is_granted_once() {
    let mut ledger = Ledger::fresh();
    assert_eq!((ledger.held, ledger.edition), (0, 0));
    grants(&mut ledger, RUDDER, &[RUDDER]);
    grants(&mut ledger, NET, &[RUDDER, NET]);
    // Both captains saw edition 2, and either row would have room.
    grants(&mut ledger.clone(), SONAR, &[RUDDER, NET, SONAR]);
    grants(&mut ledger, WINCH, &[RUDDER, NET, WINCH]);
    refuses(&ledger, &SONAR, 2, Refusal::OtherEdition);
    refuses(&ledger, &SONAR, 3, no_order(3, 2 + 3));
    // Who gives the winch up has to have seen edition 3.
    withdrawing_refuses(&ledger, 2, 2, Refusal::OtherEdition);
    takes_out(&mut ledger, 2, &[RUDDER, NET]);
    refuses(&ledger, &SONAR, 3, Refusal::OtherEdition);
    grants(&mut ledger, SONAR, &[RUDDER, NET, SONAR]);
    refuses(&ledger, &WINCH, 5, no_order(3, 2 + 3));
    assert_eq!((ledger.held, ledger.edition), (3, 5));
}

// 'Judging a claim alone and adding up the yeses. In f, row 1 alone would get 40.' With the rows of
// f, row 0 alone has 20, and row 1 passes alone where it is allowed 59. But together row 0 is late
// at the lowest place with 10 + 20 + 10 = 40, and row 1 has 60 there, as in f.
#[test]
fn judging_a_claim_alone_and_adding_up_the_yeses() {
    let row_0 = [0, 0, 10, 30, 30, 0];
    let row_1 = |deadline: u32| [0, 0, 20, 100, deadline, 0];
    for (row, figure) in [(row_0, 20), (row_1(59), 40)] {
        let mut figures = [0];
        assert_eq!(judge(&row, &[0], &mut figures), Judgement::Passed);
        assert_eq!(figures, [figure]);
        grants(&mut ledger(&[], NOW), row, &[row]);
    }
    refuses(&ledger(&[row_0], NOW), &row_1(59), NOW, no_order(2, 2));
    refuses(&ledger(&[row_1(59)], NOW), &row_0, NOW, no_order(2, 2));
    grants(&mut ledger(&[row_0], NOW), row_1(60), &[row_0, row_1(60)]);
    grants(&mut ledger(&[row_1(60)], NOW), row_0, &[row_1(60), row_0]);
}

// Behind none, one and as many as there may be. The same row again is one more row.
#[test]
fn granted_behind_the_held_rows() {
    let full: Vec<Row> = (0..64).map(light).collect();
    let mut ledger = ledger(&[], NOW);
    for held in 0..64 {
        grants(&mut ledger, full[held], &full[..=held]);
    }
    assert_eq!((ledger.held, ledger.edition), (64, NOW + 64));
    grants(&mut self::ledger(&[RUDDER], 0), LIGHT, &[RUDDER, LIGHT]);
    grants(&mut self::ledger(&[LIGHT], 0), LIGHT, &[LIGHT, LIGHT]);
}

// A row of s bytes has 55 + 10s or 80 + 10s bit times, and alone it needs twice its length.
#[test]
fn granted_with_just_enough_time() {
    for (form, least) in [(1, 55), (2, 80)] {
        for (queue, bytes) in [(0, 0), (0, 8), (64, 0), (64, 8)] {
            let row = |deadline: u32| [queue, form, bytes, 1000, deadline + 30, 30];
            let needed = 2 * (least + 10 * bytes);
            grants(&mut ledger(&[], NOW), row(needed), &[row(needed)]);
            refuses(&ledger(&[], NOW), &row(needed - 1), NOW, no_order(1, 1));
        }
    }
}

// The table of case c of document 01, with the second row of the FIFO claimed last. At the lowest
// place the FIFO has 340 as in c. Where it is allowed less, the priority row passes there with 320
// as in d, and the FIFO above it with 260.
#[test]
fn granted_into_a_fifo() {
    let held = [[1, 0, 100, 1000, 1000, 0], [0, 0, 80, 500, 500, 0]];
    let row = |deadline: u32| [1, 0, 60, 1000, deadline, 0];
    for deadline in [600, 340, 339, 260] {
        let rows = [held[0], held[1], row(deadline)];
        grants(&mut ledger(&held, NOW), row(deadline), &rows);
    }
    refuses(&ledger(&held, NOW), &row(259), NOW, no_order(1, 2 + 1));
}

#[test]
fn withdrawn_from_the_front_the_middle_and_the_end() {
    let [a, b, c, d] = [1, 2, 3, 4].map(light);
    takes_out(&mut ledger(&[a, b, c, d], NOW), 0, &[b, c, d]);
    takes_out(&mut ledger(&[a, b, c, d], NOW), 1, &[a, c, d]);
    takes_out(&mut ledger(&[a, b, c, d], NOW), 2, &[a, b, d]);
    takes_out(&mut ledger(&[a, b, c, d], NOW), 3, &[a, b, c]);
    takes_out(&mut ledger(&[a], NOW), 0, &[]);
    takes_out(&mut ledger(&[LIGHT; 2], 0), 0, &[LIGHT]);
}

// Any row of a full ledger, which then has room for one again.
#[test]
fn withdrawn_from_a_full_ledger() {
    let full: Vec<Row> = (0..64).map(light).collect();
    for row in 0..64 {
        let mut left = full.clone();
        left.remove(row);
        let mut ledger = ledger(&full, NOW);
        takes_out(&mut ledger, row as u32, &left);
        left.push(LIGHT);
        grants(&mut ledger, LIGHT, &left);
    }
}

// The ledger word by word: what stands behind the rows stays, the words of the last row too, which
// are behind them now; and a claim writes six words over those.
#[test]
fn word_by_word() {
    let mut ledger = ledger(&[RUDDER, NET], NOW);
    assert_eq!(withdraw(&mut ledger, 0, NOW), Withdrawal::Withdrawn { edition: 8 });
    assert_eq!(ledger.words[..12], [0, 0, 125, 1000, 1000, 0, 0, 0, 125, 1000, 1000, 0]);
    assert_eq!((ledger.held, ledger.edition), (1, 8));
    assert_eq!(claim(&mut ledger, &[64, 2, 8, 5000, 4000, 30], 8), Claim::Granted { edition: 9 });
    assert_eq!(ledger.words[..12], [0, 0, 125, 1000, 1000, 0, 64, 2, 8, 5000, 4000, 30]);
    assert_eq!((ledger.held, ledger.edition), (2, 9));
    assert!((12..384).all(|place| ledger.words[place] == 0xC0DE_0000 + place as u32));
}
