//! Books made without the library, as request L1 of document 02 describes them, and damage to them.

use front::table::MOST_ROWS;
use tables::Prng;

/// The book of these words, six a row.
pub fn book(words: &[u32]) -> Vec<u8> {
    let rows = words.len() / 6;
    let count = u16::try_from(rows).expect("a row count of two bytes").to_be_bytes();
    let offsets = (0..rows).map(|row| (2 + 4 * rows + 24 * row) as u32).flat_map(u32::to_be_bytes);
    let bodies = words.iter().copied().flat_map(u32::to_le_bytes);
    count.into_iter().chain(offsets).chain(bodies).collect()
}

/// Rows of any words at all: some of them small, and forms mostly those that a CSV can tell.
pub fn any_words(prng: &mut Prng) -> Vec<u32> {
    let rows = if prng.chance(10) { MOST_ROWS } else { 1 + prng.below(12) };
    let odd_form = prng.chance(30);
    let word = |prng: &mut Prng| match prng.below(3) {
        0 => prng.between(0, 9),
        1 => prng.between(0, 2_000_000),
        _ => prng.word() as u32,
    };
    let row = |prng: &mut Prng| {
        let mut words: [u32; 6] = std::array::from_fn(|_| word(prng));
        words[1] = if odd_form && prng.chance(30) { word(prng) } else { prng.between(0, 2) };
        words
    };
    (0..rows).flat_map(|_| row(prng)).collect()
}

/// Damages a book in one place or a few: its count, an offset, its length, or any byte.
pub fn damage(book: &mut Vec<u8>, prng: &mut Prng) {
    for _ in 0..prng.pick(&[0, 1, 1, 1, 1, 2, 4]) {
        let count = usize::from(book.get(1).copied().unwrap_or_default());
        let at = prng.below(book.len() + 1);
        match prng.below(8) {
            0 => set(book, at % 2, prng),
            1 => book.truncate(at),
            2 => book.truncate(prng.below(3)),
            3 => book.extend((0..prng.between(1, 30)).map(|at| at as u8)),
            4 | 5 => set(book, at % (2 + 4 * count), prng),
            6 => book.insert(at, prng.word() as u8),
            _ => set(book, at, prng),
        }
    }
}

/// Puts another byte at this place, if there is one.
fn set(book: &mut [u8], at: usize, prng: &mut Prng) {
    if let Some(byte) = book.get_mut(at) {
        let any = prng.word() as u8;
        *byte = prng.pick(&[0, 0, 1, 65, *byte ^ 1, any]);
    }
}
