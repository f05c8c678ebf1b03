//! Claims and withdrawals made by hand after request L4, put to the claim desk of the second
//! program, each with its reply and every word of the ledger.

#[path = "desk_cases/refusals.rs"]
mod refusals;

use second::desk::{claim, withdraw, Ledger};
use second::Reply;

/// The edition at which a ledger is closed.
const LAST: u32 = 4_294_967_295;
/// The edition of most ledgers here.
const NOW: u32 = 7;

type Row = [u32; 6];

/// A row that takes little of the bus and is allowed much time: it passes at the lowest place.
const LIGHT: Row = [0, 0, 10, 100_000, 100_000, 0];
/// A row that has no order even alone: it is allowed less than twice its length.
const HOPELESS: Row = [0, 0, 10, 19, 19, 0];
/// A row that is bad in its first field.
const BAD: Row = [65, 0, 10, 100, 100, 0];

/// One of a kind of row of which three fit on the bus: the lowest of n has w = 10n, for each of
/// those above counts once, and its figure 10n + 10 may be 40. The period tells one from another.
fn tight(number: u32) -> Row {
    [0, 0, 10, 100 + number, 40, 0]
}

/// These rows in this edition; behind them each place has a word of its own.
fn ledger(rows: &[Row], edition: u32) -> Ledger {
    let mut words = std::array::from_fn(|place| 0xC0DE_0000 + place as u32);
    words[..6 * rows.len()].copy_from_slice(rows.as_flattened());
    Ledger { words, held: rows.len() as u32, edition }
}

/// The claim for the edition `seen` gets this reply, and nothing is altered.
#[track_caller]
fn refuses_claim(ledger: &Ledger, row: &[u32], seen: u32, reply: Reply) {
    let mut after = ledger.clone();
    assert_eq!((claim(&mut after, row, seen), &after), (reply, ledger));
}

/// The withdrawal for the edition `seen` gets this reply, and nothing is altered.
#[track_caller]
fn refuses_withdrawal(ledger: &Ledger, row: u32, seen: u32, reply: Reply) {
    let mut after = ledger.clone();
    assert_eq!((withdraw(&mut after, row, seen), &after), (reply, ledger));
}

/// The claim is granted, and then the ledger holds `rows` and no other word is written.
#[track_caller]
fn grants(ledger: &mut Ledger, row: Row, rows: &[Row]) {
    let mut expected = ledger.clone();
    expected.words[..6 * rows.len()].copy_from_slice(rows.as_flattened());
    (expected.held, expected.edition) = (rows.len() as u32, ledger.edition + 1);
    let reply = claim(ledger, &row, ledger.edition);
    assert_eq!((reply, &*ledger), (Reply::Granted(expected.edition), &expected));
}

/// The row is taken out, and then the ledger holds `rows` and no other word is written.
#[track_caller]
fn takes_out(ledger: &mut Ledger, row: u32, rows: &[Row]) {
    let mut expected = ledger.clone();
    expected.words[..6 * rows.len()].copy_from_slice(rows.as_flattened());
    (expected.held, expected.edition) = (rows.len() as u32, ledger.edition + 1);
    let reply = withdraw(ledger, row, ledger.edition);
    assert_eq!((reply, &*ledger), (Reply::Withdrawn(expected.edition), &expected));
}

// The bus has room for one more message, and two captains claim it.
#[test]
fn two_captains() {
    let mut ledger = Ledger::fresh();
    assert_eq!(ledger, Ledger { words: [0; 384], held: 0, edition: 0 });
    grants(&mut ledger, tight(0), &[tight(0)]);
    grants(&mut ledger, tight(1), &[tight(0), tight(1)]);
    // Both saw edition 2, and the first to claim gets the room.
    assert_eq!(ledger.edition, 2);
    grants(&mut ledger, tight(2), &[tight(0), tight(1), tight(2)]);
    refuses_claim(&ledger, &tight(3), 2, Reply::OtherEdition);
    refuses_claim(&ledger, &tight(3), 3, Reply::NoOrder { unplaced: 4, tried: 4 });
    takes_out(&mut ledger, 0, &[tight(1), tight(2)]);
    grants(&mut ledger, tight(3), &[tight(1), tight(2), tight(3)]);
    assert_eq!((ledger.held, ledger.edition), (3, 5));
    assert!(ledger.words[18..].iter().all(|&word| word == 0));
}

#[test]
fn numbers_of_the_replies() {
    let refusals = [Reply::Closed, Reply::OtherEdition, Reply::NoSuchRow, Reply::BadLedger];
    assert_eq!(refusals.map(Reply::number), [9, 10, 11, 23]);
    assert_eq!([Reply::Granted(1), Reply::Withdrawn(2)].map(Reply::number), [105, 106]);
}

// With 63 light rows below it, each no longer than itself, a tight one has the figure 20.
#[test]
fn granted_behind_the_held_rows() {
    grants(&mut ledger(&[], NOW), LIGHT, &[LIGHT]);
    grants(&mut ledger(&[LIGHT], 0), tight(0), &[LIGHT, tight(0)]);
    grants(&mut ledger(&[LIGHT; 63], NOW), tight(0), &[&[LIGHT; 63][..], &[tight(0)]].concat());
}

// The FIFO is late at the lowest place, where its figure is 20 + 32 - 12 + 16 + 12 = 68. The row of
// 16 passes there with 16 + 32 + 16 = 64, and then the FIFO has 20 + 32 - 12 + 12 = 52.
#[test]
fn into_a_fifo() {
    let held = [[1, 0, 20, 200, 200, 0], [0, 0, 16, 100, 100, 0]];
    let row = |deadline: u32| [1, 0, 12, 200, deadline, 0];
    grants(&mut ledger(&held, NOW), row(52), &[held[0], held[1], row(52)]);
    let none = Reply::NoOrder { unplaced: 1, tried: 3 };
    refuses_claim(&ledger(&held, NOW), &row(51), NOW, none);
}

#[test]
fn taken_out_of_the_front_the_middle_and_the_end() {
    let [a, b, c, d] = [0, 1, 2, 3].map(|number| [0, 0, 10, 5_000 + number, 5_000, number]);
    takes_out(&mut ledger(&[a, b, c, d], NOW), 0, &[b, c, d]);
    takes_out(&mut ledger(&[a, b, c, d], NOW), 1, &[a, c, d]);
    takes_out(&mut ledger(&[a, b, c, d], NOW), 2, &[a, b, d]);
    takes_out(&mut ledger(&[a, b, c, d], NOW), 3, &[a, b, c]);
    takes_out(&mut ledger(&[a], NOW), 0, &[]);
    let full: Vec<Row> = (0..64).map(|number| [0, 0, 1, 9_000 + number, 9_000, 0]).collect();
    takes_out(&mut ledger(&full, NOW), 0, &full[1..]);
    takes_out(&mut ledger(&full, NOW), 63, &full[..63]);
}

// The words of the row that was the last stay behind those that are left.
#[test]
fn word_by_word() {
    let mut ledger = ledger(&[tight(0), tight(1)], NOW);
    assert_eq!(withdraw(&mut ledger, 0, NOW), Reply::Withdrawn(8));
    let rows = [[0, 0, 10, 101, 40, 0], [0, 0, 10, 101, 40, 0]];
    assert_eq!((&ledger.words[..12], ledger.held), (rows.as_flattened(), 1));
    assert!((12..384).all(|place| ledger.words[place] == 0xC0DE_0000 + place as u32));
}

// The last change makes the edition at which the ledger is closed.
#[test]
fn the_last_change() {
    let mut claimed = ledger(&[LIGHT], 4_294_967_294);
    grants(&mut claimed, tight(0), &[LIGHT, tight(0)]);
    let mut taken = ledger(&[LIGHT, tight(0)], 4_294_967_294);
    takes_out(&mut taken, 0, &[tight(0)]);
    for closed in [claimed, taken] {
        assert_eq!(closed.edition, LAST);
        refuses_claim(&closed, &LIGHT, LAST, Reply::Closed);
        refuses_withdrawal(&closed, 0, LAST, Reply::Closed);
    }
}

// A lent ledger that has no order grants nothing, but a row can be taken out.
#[test]
fn lent_without_an_order() {
    let [a, b, c, d] = [0, 1, 2, 3].map(tight);
    let mut lent = ledger(&[a, b, c, d], NOW);
    refuses_claim(&lent, &LIGHT, NOW, Reply::NoOrder { unplaced: 4, tried: 5 + 4 });
    takes_out(&mut lent, 1, &[a, c, d]);
    grants(&mut lent, LIGHT, &[a, c, d, LIGHT]);
    let mut two_hopeless = ledger(&[HOPELESS, LIGHT, HOPELESS], NOW);
    takes_out(&mut two_hopeless, 1, &[HOPELESS, HOPELESS]);
    takes_out(&mut two_hopeless, 0, &[HOPELESS]);
    refuses_claim(&two_hopeless, &LIGHT, NOW + 2, Reply::NoOrder { unplaced: 1, tried: 2 + 1 });
    takes_out(&mut two_hopeless, 0, &[]);
}
