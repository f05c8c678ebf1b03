//! Damage to a good case, so that each of the refusals 1 to 7 is due, alone or with others.

use crate::fields::{bad_words, Row, LAST_FIFO};
use crate::prng::Prng;
use crate::{lent, Case};

/// One way to damage a case.
pub(crate) type Way<C> = fn(&mut C, &mut Prng);

/// The ways that tell when an order is judged.
pub(crate) const FOR_JUDGING: [Way<Case>; 7] =
    [ragged, too_many, bad_rows, no_room, order_length, bad_entries, split_queue];
/// The ways that tell when an order is looked for.
pub(crate) const FOR_FINDING: [Way<Case>; 4] = [ragged, too_many, bad_rows, no_room];

/// Damages the case in one of these ways, or in several at once so that the order of the checks
/// tells.
pub(crate) fn damage<C>(case: &mut C, ways: &[Way<C>], prng: &mut Prng) {
    let times = if prng.chance(25) { prng.between(2, 4) } else { 1 };
    for _ in 0..times {
        let way = prng.pick(ways);
        way(case, prng);
    }
}

/// Refusal 1: no words, or not a multiple of six.
fn ragged(case: &mut Case, prng: &mut Prng) {
    make_ragged(&mut case.table, prng);
}

/// Refusal 2: more than 64 rows, often just one more; all else is as if that many were allowed.
fn too_many(case: &mut Case, prng: &mut Prng) {
    let rows = make_too_many(&mut case.table, prng);
    case.order = (0..rows).collect();
    case.figures = lent(rows as usize, prng);
}

/// Refusal 3: one to three words that their fields do not allow.
fn bad_rows(case: &mut Case, prng: &mut Prng) {
    let (rows, _) = case.table.as_chunks_mut::<6>();
    if rows.is_empty() {
        return;
    }
    for _ in 0..prng.between(1, 3) {
        let row: &mut Row = &mut rows[prng.below(rows.len())];
        let field = prng.below(6);
        row[field] = prng.pick(&bad_words(row, field));
    }
}

/// Refusal 4: a lent list shorter than the table.
fn no_room(case: &mut Case, prng: &mut Prng) {
    let n = case.table.len() / 6;
    let room = prng.pick(&[0, n / 2, n.saturating_sub(1), n.saturating_sub(1)]);
    case.figures.truncate(room);
}

/// Refusal 5: an order with too few entries or too many.
fn order_length(case: &mut Case, prng: &mut Prng) {
    let n = case.order.len();
    match prng.below(4) {
        0 => case.order.clear(),
        1 => case.order.truncate(n.saturating_sub(1)),
        2 => case.order.push(prng.between(0, 70)),
        _ => case.order.extend_from_within(..),
    }
}

/// Refusal 6: one to three entries that are out of range or repeat another.
fn bad_entries(case: &mut Case, prng: &mut Prng) {
    if case.order.is_empty() {
        return;
    }
    let n = case.order.len() as u32;
    for _ in 0..prng.between(1, 3) {
        let other = prng.pick(&case.order);
        let entry = prng.pick(&[n, n + 1, 64, 65, u32::MAX, other ^ 64, other, other, other]);
        let place = prng.below(case.order.len());
        case.order[place] = entry;
    }
}

/// Refusal 7: a FIFO with another row between its rows.
fn split_queue(case: &mut Case, prng: &mut Prng) {
    let n = case.order.len();
    if n < 3 || prng.chance(20) {
        return prng.shuffle(&mut case.order);
    }
    // Two places with at least one between them; their rows go into one FIFO.
    let first = prng.below(n - 2);
    let second = first + 2 + prng.below(n - 2 - first);
    let fifo = prng.between(1, LAST_FIFO);
    for place in [first, second] {
        if let Some(queue) = case.table.get_mut(6 * case.order[place] as usize) {
            *queue = fifo;
        }
    }
}

/// Leaves no words, or not a multiple of six.
pub(crate) fn make_ragged(words: &mut Vec<u32>, prng: &mut Prng) {
    let whole = words.len();
    match prng.below(8) {
        0 => words.clear(),
        1 => words.truncate(prng.below(6)),
        2..=4 => words.truncate(whole.saturating_sub(prng.below(5) + 1)),
        _ => words.resize(whole + prng.below(5) + 1, 1),
    }
}

/// Repeats the words until they are more than 64 rows, and says how many these are.
pub(crate) fn make_too_many(words: &mut Vec<u32>, prng: &mut Prng) -> u32 {
    let rows = if prng.chance(60) { 65 } else { prng.between(66, 100) };
    *words = words.iter().copied().cycle().take(6 * rows as usize).collect();
    rows
}
