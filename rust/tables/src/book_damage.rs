//! Damage to a good book, or to the words for one, so that each refusal of request L1 is due, alone
//! or with others.

use crate::books::{
    book_length, lent_bytes, ReadCase, WriteCase, COUNT_BYTES, MAX_ROWS, ROW_BYTES,
};
use crate::damage::{make_ragged, make_too_many, Way};
use crate::prng::Prng;

/// The ways that tell when a book is read.
pub(crate) const FOR_READING: [Way<ReadCase>; 12] = [
    too_short,
    count_of_none,
    count_over_the_limit,
    another_count,
    cut_short,
    bytes_behind,
    another_count_and_length,
    exchanged_offsets,
    wrong_offsets,
    wrong_offsets,
    flipped_bits,
    no_room_for_words,
];
/// The ways that tell when a book is written.
pub(crate) const FOR_WRITING: [Way<WriteCase>; 3] = [ragged, too_many, no_room_for_bytes];

/// Refusal 20: not even a whole count.
fn too_short(case: &mut ReadCase, prng: &mut Prng) {
    case.book.truncate(prng.below(COUNT_BYTES));
}

/// Refusal 20: a count of 0.
fn count_of_none(case: &mut ReadCase, _: &mut Prng) {
    set_count(case, 0);
}

/// Refusal 2: a count over the limit, by one or so, or in its high byte alone.
fn count_over_the_limit(case: &mut ReadCase, prng: &mut Prng) {
    let rows = count_by_length(case);
    let limit = MAX_ROWS as u16;
    let any = prng.between(MAX_ROWS + 1, u16::MAX.into()) as u16;
    let counts = [limit + 1, limit + 2, 255, 256, 256 + rows, rows << 8, u16::MAX, any];
    set_count(case, prng.pick(&counts));
}

/// Refusal 21: an allowed count, but not that of the length.
fn another_count(case: &mut ReadCase, prng: &mut Prng) {
    let rows = count_by_length(case);
    let any = prng.between(1, MAX_ROWS) as u16;
    set_count(case, prng.pick(&[rows + 1, rows.saturating_sub(1), 1, MAX_ROWS as u16, any]));
}

/// Refusal 21: the last bytes are missing.
fn cut_short(case: &mut ReadCase, prng: &mut Prng) {
    let bytes = case.book.len();
    let any = prng.below(bytes + 1);
    let missing = prng.pick(&[1, 4, 24, ROW_BYTES, any]);
    case.book.truncate(bytes.saturating_sub(missing));
}

/// Refusal 21: more bytes than the rows have.
fn bytes_behind(case: &mut ReadCase, prng: &mut Prng) {
    let any = prng.below(100);
    let more = prng.pick(&[1, 4, 24, ROW_BYTES, any]);
    case.book.extend(lent_bytes(more, prng));
}

/// Refusal 22: count and length agree, but the contents are those of a book with other rows.
fn another_count_and_length(case: &mut ReadCase, prng: &mut Prng) {
    let rows = prng.between(1, MAX_ROWS);
    let filler = prng.word() as u8;
    case.book.resize(COUNT_BYTES + rows as usize * ROW_BYTES, filler);
    set_count(case, rows as u16);
}

/// Refusal 22: two offsets in each other's place.
fn exchanged_offsets(case: &mut ReadCase, prng: &mut Prng) {
    let offsets = offsets(case);
    if !offsets.is_empty() {
        offsets.swap(prng.below(offsets.len()), prng.below(offsets.len()));
    }
}

/// Refusal 22: one offset is wrong, or it and all behind it: off by a row, by a byte or by a bit of
/// a higher byte, or with its bytes turned round.
fn wrong_offsets(case: &mut ReadCase, prng: &mut Prng) {
    let offsets = offsets(case);
    if offsets.is_empty() {
        return;
    }
    let by: u32 = prng.pick(&[1, 1, 2, 4, 24, 24, 28, 1 << 8, 1 << 16, 1 << 24, 1 << 31]);
    let by = if prng.chance(50) { by.wrapping_neg() } else { by };
    let turned_round = prng.chance(20);
    let wrong = |offset: u32| {
        if turned_round {
            offset.swap_bytes()
        } else {
            offset.wrapping_add(by)
        }
    };
    let first = prng.below(offsets.len());
    let end = if prng.chance(50) { first + 1 } else { offsets.len() };
    for offset in &mut offsets[first..end] {
        *offset = wrong(u32::from_be_bytes(*offset)).to_be_bytes();
    }
}

/// Any of the refusals, or other words: one to three bits are turned over, half of them in the
/// contents.
fn flipped_bits(case: &mut ReadCase, prng: &mut Prng) {
    for _ in 0..prng.between(1, 3) {
        let contents = COUNT_BYTES + 4 * usize::from(count_by_length(case));
        let bytes = if prng.chance(50) { contents } else { case.book.len() };
        if let Some(byte) = case.book.get_mut(prng.below(bytes.max(1))) {
            *byte ^= 1 << prng.below(8);
        }
    }
}

/// Refusal 4: a lent list shorter than the words, by one or by much.
fn no_room_for_words(case: &mut ReadCase, prng: &mut Prng) {
    let rows = usize::from(count_by_length(case));
    let words = 6 * rows;
    let room = prng.pick(&[0, rows, words.saturating_sub(6), words.saturating_sub(1)]);
    case.words.truncate(room);
}

/// Refusal 1: no words, or not a multiple of six.
fn ragged(case: &mut WriteCase, prng: &mut Prng) {
    make_ragged(&mut case.words, prng);
}

/// Refusal 2: more than 64 rows, with room as if that many were allowed.
fn too_many(case: &mut WriteCase, prng: &mut Prng) {
    make_too_many(&mut case.words, prng);
    case.book = lent_bytes(book_length(case.words.len()), prng);
}

/// Refusal 4: a lent list shorter than the book, by one byte, by the count or by the contents.
fn no_room_for_bytes(case: &mut WriteCase, prng: &mut Prng) {
    let bytes = book_length(case.words.len());
    let bodies = 4 * case.words.len();
    let room = prng.pick(&[0, 1, bytes / 2, bodies, bytes - COUNT_BYTES, bytes - 1, bytes - 1]);
    case.book.truncate(room);
}

/// As many rows as the book's length has room for.
fn count_by_length(case: &ReadCase) -> u16 {
    (case.book.len().saturating_sub(COUNT_BYTES) / ROW_BYTES) as u16
}

/// Makes the book say that it has so many rows, if it is long enough to say it.
fn set_count(case: &mut ReadCase, count: u16) {
    if let Some(bytes) = case.book.first_chunk_mut() {
        *bytes = count.to_be_bytes();
    }
}

/// The offsets of as many rows as the book's length has room for.
fn offsets(case: &mut ReadCase) -> &mut [[u8; 4]] {
    let rows = usize::from(count_by_length(case));
    let behind_the_count = case.book.get_mut(COUNT_BYTES..).unwrap_or_default();
    &mut behind_the_count.as_chunks_mut().0[..rows]
}
