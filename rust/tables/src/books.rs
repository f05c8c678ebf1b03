//! Inputs for a reader and for a writer of books: good tables and any words at all, and damaged
//! ones.

use std::fmt;

use crate::book_damage::{FOR_READING, FOR_WRITING};
use crate::damage::damage;
use crate::finding;
use crate::prng::Prng;
use crate::{lent, show_lent, show_table, spare};

/// Of a hundred books, how many are damaged.
const DAMAGED_BOOKS: u32 = 60;
/// Of a hundred lists of words for a book, how many are damaged.
const DAMAGED_WORDS: u32 = 40;

/// The most rows of a book.
pub(crate) const MAX_ROWS: u32 = 64;
/// Bytes before the first offset.
pub(crate) const COUNT_BYTES: usize = 2;
/// Bytes of a row: its offset, and its six words.
pub(crate) const ROW_BYTES: usize = 4 + 24;

/// Words at the ends of what one byte and what four can hold.
const ENDS: [u32; 8] = [0, 0, 1, 255, 256, 1 << 31, u32::MAX - 1, u32::MAX];

/// One input for a reader of books.
#[derive(Debug, Clone, PartialEq, Eq)]
pub struct ReadCase {
    /// The seed it was made from.
    pub seed: u64,
    /// The bytes of the book.
    pub book: Vec<u8>,
    /// The list lent for the words, with what it holds beforehand.
    pub words: Vec<u32>,
}

/// One input for a writer of books.
#[derive(Debug, Clone, PartialEq, Eq)]
pub struct WriteCase {
    /// The seed it was made from.
    pub seed: u64,
    /// The words for the book.
    pub words: Vec<u32>,
    /// The list lent for the book, with what it holds beforehand.
    pub book: Vec<u8>,
}

/// The reading case of this seed.
pub fn read_case(seed: u64) -> ReadCase {
    let mut prng = Prng::new(seed);
    let words = any_words(&mut prng);
    let room = words.len() + spare(&mut prng);
    let mut case = ReadCase { seed, book: book_of(&words), words: lent(room, &mut prng) };
    if prng.chance(DAMAGED_BOOKS) {
        damage(&mut case, &FOR_READING, &mut prng);
    }
    case
}

/// The writing case of this seed.
pub fn write_case(seed: u64) -> WriteCase {
    let mut prng = Prng::new(seed);
    let words = any_words(&mut prng);
    let room = book_length(words.len()) + spare(&mut prng);
    let mut case = WriteCase { seed, words, book: lent_bytes(room, &mut prng) };
    if prng.chance(DAMAGED_WORDS) {
        damage(&mut case, &FOR_WRITING, &mut prng);
    }
    case
}

/// The book of these words, six a row.
pub fn book_of(words: &[u32]) -> Vec<u8> {
    let rows = words.len() / 6;
    let mut book = (rows as u16).to_be_bytes().to_vec();
    let mut offset = 2 + 4 * rows as u32;
    for _ in 0..rows {
        book.extend(offset.to_be_bytes());
        offset += 24;
    }
    for word in words {
        book.extend(word.to_le_bytes());
    }
    book
}

/// Words for so many rows of a book, any words at all.
pub fn any_rows(rows: u32, prng: &mut Prng) -> Vec<u32> {
    (0..6 * rows).map(|_| any_word(prng)).collect()
}

/// The bytes of the book of so many words.
pub(crate) fn book_length(words: usize) -> usize {
    COUNT_BYTES + words / 6 * ROW_BYTES
}

/// A lent list of so many made-up bytes.
pub fn lent_bytes(bytes: usize, prng: &mut Prng) -> Vec<u8> {
    (0..bytes).map(|_| prng.word() as u8).collect()
}

/// The words of 1 to 64 rows: half the time those of a good table.
fn any_words(prng: &mut Prng) -> Vec<u32> {
    match prng.below(8) {
        0..=3 => finding::any(prng).concat(),
        4 => any_rows(prng.pick(&[1, 2, MAX_ROWS - 1, MAX_ROWS]), prng),
        _ => any_rows(prng.between(1, MAX_ROWS), prng),
    }
}

/// Any word: an end, one that has a single byte set, or one whose four bytes are made up.
fn any_word(prng: &mut Prng) -> u32 {
    match prng.below(4) {
        0 => prng.pick(&ENDS),
        1 => prng.between(1, 255) << prng.pick(&[0, 8, 16, 24]),
        _ => prng.word() as u32,
    }
}

impl fmt::Display for ReadCase {
    fn fmt(&self, f: &mut fmt::Formatter) -> fmt::Result {
        writeln!(f, "seed {}, a book of {} bytes: {:02x?}", self.seed, self.book.len(), self.book)?;
        show_lent(f, &self.words)
    }
}

impl fmt::Display for WriteCase {
    fn fmt(&self, f: &mut fmt::Formatter) -> fmt::Result {
        show_table(f, self.seed, &self.words)?;
        write!(f, "a lent list of {} bytes: {:02x?}", self.book.len(), self.book)
    }
}
