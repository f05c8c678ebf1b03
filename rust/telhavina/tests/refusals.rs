//! 'Checks run in the order 1 to 7' of document 01: of two refusals that are both due, the lower
//! is given, with the first offending place, and no lent word is altered. Checks 1 to 4 are the
//! same for judging and for finding. Then all refusals in words, those of books and of the desk
//! too; in which order they are given stands with the cases of each.

use telhavina::{find, judge, Finding, Judgement, Refusal};

/// What a lent word holds before the call.
const LENT: u32 = 0xC0DE_C0DE;
/// A good row of priority, and one of FIFO 1.
const GOOD: [u32; 6] = [0, 0, 10, 100, 100, 0];
const FIFO: [u32; 6] = [1, 0, 10, 100, 100, 0];
/// A row whose form is bad, and its size, period and deadline too.
const BAD: [u32; 6] = [0, 3, 0, 0, 0, 0];

/// The question is refused so with a lent list of so many words, and none of them is altered.
#[track_caller]
fn refuses(table: &[u32], order: &[u32], room: usize, refusal: Refusal) {
    let mut lent = vec![LENT; room];
    assert_eq!(judge(table, order, &mut lent), Judgement::Refused(refusal));
    assert_eq!(lent, vec![LENT; room]);
}

/// So is the question for an order.
#[track_caller]
fn finding_refuses(table: &[u32], room: usize, refusal: Refusal) {
    let mut lent = vec![LENT; room];
    assert_eq!(find(table, &mut lent), Finding::Refused(refusal));
    assert_eq!(lent, vec![LENT; room]);
}

/// Both are.
#[track_caller]
fn both_refuse(table: &[u32], order: &[u32], room: usize, refusal: Refusal) {
    refuses(table, order, room, refusal);
    finding_refuses(table, room, refusal);
}

#[test]
fn ragged_before_too_many() {
    both_refuse(&[0; 65 * 6 + 1], &[], 0, Refusal::Ragged);
}

#[test]
fn too_many_before_bad_row() {
    both_refuse(&BAD.repeat(65), &[], 0, Refusal::TooMany);
}

#[test]
fn bad_row_before_no_room() {
    both_refuse(&BAD, &[0], 0, Refusal::BadRow { row: 0, field: 2 });
}

// Two rows that can never pass, as 2C is 20: with room for one of them that is not yet told.
#[test]
fn no_room_before_no_order() {
    let table = [0, 0, 10, 100, 19, 0].repeat(2);
    finding_refuses(&table, 0, Refusal::NoRoom);
    finding_refuses(&table, 1, Refusal::NoRoom);
    finding_refuses(&table, 2, Refusal::NoOrder { unplaced: 2, tried: 2 });
}

#[test]
fn no_room_before_order_length() {
    refuses(&GOOD.repeat(2), &[0], 1, Refusal::NoRoom);
    refuses(&GOOD, &[], 0, Refusal::NoRoom);
}

#[test]
fn order_length_before_order_entry() {
    refuses(&GOOD.repeat(2), &[5], 2, Refusal::OrderLength);
    refuses(&GOOD.repeat(2), &[0, 0, 0], 2, Refusal::OrderLength);
    refuses(&GOOD, &[], 1, Refusal::OrderLength);
}

// All of 6 comes before any of 7, also where the split comes first in the order.
#[test]
fn order_entry_before_split_queue() {
    let table = [FIFO, GOOD, FIFO, GOOD].concat();
    refuses(&table, &[0, 1, 2, 1], 4, Refusal::OrderEntry { place: 3 });
    refuses(&table, &[0, 1, 2, 3], 4, Refusal::SplitQueue { place: 2 });
}

#[test]
fn lowest_row_then_lowest_field() {
    let mut low_field = GOOD;
    low_field[0] = 65;
    let mut high_field = GOOD;
    high_field[5] = 101;
    let refusal = Refusal::BadRow { row: 1, field: 6 };
    both_refuse(&[GOOD, high_field, low_field].concat(), &[0, 1, 2], 3, refusal);
    both_refuse(&[GOOD, BAD].concat(), &[0, 1], 2, Refusal::BadRow { row: 1, field: 2 });
}

#[test]
fn each_field_has_its_own_number() {
    let bad = [65, 3, 4_097, 1_000_001, 101, 101];
    for (at, word) in bad.into_iter().enumerate() {
        let mut row = GOOD;
        row[at] = word;
        both_refuse(&row, &[0], 1, Refusal::BadRow { row: 0, field: at + 1 });
    }
}

// A repeat is reported at its second place; out of range starts at n.
#[test]
fn first_bad_entry() {
    let table = GOOD.repeat(3);
    refuses(&table, &[2, 2, 3], 3, Refusal::OrderEntry { place: 1 });
    refuses(&table, &[2, 3, 2], 3, Refusal::OrderEntry { place: 1 });
    refuses(&table, &[u32::MAX, 2, 2], 3, Refusal::OrderEntry { place: 0 });
    // 64 and 2^32 - 64 are 0 to a set of 64 flags that is asked without a look at the range.
    refuses(&table, &[1, 64, 2], 3, Refusal::OrderEntry { place: 1 });
    refuses(&table, &[1, 2, 0u32.wrapping_sub(64)], 3, Refusal::OrderEntry { place: 2 });
}

// Two FIFOs that take turns: the first to be resumed is reported, where it is.
#[test]
fn first_resumed_fifo() {
    let mut other = FIFO;
    other[0] = 64;
    let table = [FIFO, FIFO, other, other].concat();
    refuses(&table, &[2, 0, 3, 1], 4, Refusal::SplitQueue { place: 2 });
    refuses(&table, &[2, 0, 1, 3], 4, Refusal::SplitQueue { place: 3 });
}

// What a person reads names the number, and the place where there is one.
#[test]
fn in_words() {
    let bad_row = Refusal::BadRow { row: 12, field: 3 };
    assert_eq!(bad_row.to_string(), "Refusal 3: field 3 of row 12 is not allowed.");
    let split = Refusal::SplitQueue { place: 5 };
    assert_eq!(
        split.to_string(),
        "Refusal 7: place 5 of the order resumes a FIFO that was already left."
    );
    let no_order = Refusal::NoOrder { unplaced: 3, tried: 17 };
    assert_eq!(
        no_order.to_string(),
        "Refusal 8: no order of these messages passes (bands left without a place: 3, bands \
         tried: 17)."
    );
    let offset = Refusal::BookOffset { row: 7 };
    assert_eq!(
        offset.to_string(),
        "Refusal 22: the book says that row 7 starts where it does not."
    );
    assert_eq!(
        Refusal::OtherEdition.to_string(),
        "Refusal 10: the ledger has another edition than the one that was sent."
    );
    let all = [
        Refusal::Ragged,
        Refusal::TooMany,
        bad_row,
        Refusal::NoRoom,
        Refusal::OrderLength,
        Refusal::OrderEntry { place: 0 },
        split,
        no_order,
        Refusal::Closed,
        Refusal::OtherEdition,
        Refusal::NoSuchRow,
        Refusal::EmptyBook,
        Refusal::BookLength,
        offset,
        Refusal::BadLedger,
    ];
    for (refusal, number) in all.iter().zip((1..=11).chain(20..)) {
        assert_eq!(refusal.number(), number);
        let words = refusal.to_string();
        assert!(words.starts_with(&format!("Refusal {number}: ")) && words.ends_with('.'));
    }
}
