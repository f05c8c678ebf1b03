//! Books made by hand after request L1, put to the library across the C boundary. Every word or
//! byte of the lent list is looked at, those past the answer too.

mod book_a;
mod rows;

use book_a::{with, BOOK_A};
use rows::{words, A, C, GOOD, LENT, SPARE};
use telhavina::{read_book, write_book, Reading, Refusal, Writing};

/// What a lent byte holds before the call; no byte of these books is the same.
const LENT_BYTE: u8 = 0xA5;

/// The book has these words, in a lent list that has just enough room and in one that has more.
#[track_caller]
fn reads(book: &[u8], words: &[u32]) {
    for spare in [0, SPARE] {
        let mut lent = vec![LENT; words.len() + spare];
        assert_eq!(read_book(book, &mut lent), Reading::Read { rows: words.len() / 6 });
        assert_eq!(lent, [words, &vec![LENT; spare]].concat());
    }
}

/// These words make the book, in a lent list that has just enough room and in one that has more.
#[track_caller]
fn writes(words: &[u32], book: &[u8]) {
    for spare in [0, SPARE] {
        let mut lent = vec![LENT_BYTE; book.len() + spare];
        assert_eq!(write_book(words, &mut lent), Writing::Written { bytes: book.len() });
        assert_eq!(lent, [book, &vec![LENT_BYTE; spare]].concat());
    }
}

/// The book is refused so with a lent list of so many words, and none of them is altered.
#[track_caller]
fn reading_refuses(book: &[u8], room: usize, refusal: Refusal) {
    let mut lent = vec![LENT; room];
    assert_eq!(read_book(book, &mut lent), Reading::Refused(refusal));
    assert_eq!(lent, vec![LENT; room]);
}

/// The words are refused so with a lent list of so many bytes, and none of them is altered.
#[track_caller]
fn writing_refuses(words: &[u32], room: usize, refusal: Refusal) {
    let mut lent = vec![LENT_BYTE; room];
    assert_eq!(write_book(words, &mut lent), Writing::Refused(refusal));
    assert_eq!(lent, vec![LENT_BYTE; room]);
}

/// The book is refused so whether there is room, or none and 4 is due as well.
#[track_caller]
fn reading_refuses_first(book: &[u8], refusal: Refusal) {
    reading_refuses(book, 65 * 6 + SPARE, refusal);
    reading_refuses(book, 0, refusal);
}

/// The words are refused so whether there is room, or none and 4 is due as well.
#[track_caller]
fn writing_refuses_first(words: &[u32], refusal: Refusal) {
    writing_refuses(words, 65 * 28 + 2 + SPARE, refusal);
    writing_refuses(words, 0, refusal);
}

#[test]
fn the_book_of_table_a() {
    reads(&BOOK_A, &words(&A));
    writes(&words(&A), &BOOK_A);
}

// The rows of c start at 2 + 3 * 4 = 14, 38 and 62.
#[test]
fn the_book_of_table_c() {
    let contents = [0, 3, 0, 0, 0, 14, 0, 0, 0, 38, 0, 0, 0, 62];
    #[rustfmt::skip]
    let bodies = [
        1, 0, 0, 0,  0, 0, 0, 0,  100, 0, 0, 0,  232, 3, 0, 0,  232, 3, 0, 0,  0, 0, 0, 0,
        1, 0, 0, 0,  0, 0, 0, 0,   60, 0, 0, 0,  232, 3, 0, 0,   88, 2, 0, 0,  0, 0, 0, 0,
        0, 0, 0, 0,  0, 0, 0, 0,   80, 0, 0, 0,  244, 1, 0, 0,  244, 1, 0, 0,  0, 0, 0, 0,
    ];
    let book = [&contents[..], &bodies].concat();
    reads(&book, &words(&C));
    writes(&words(&C), &book);
}

// 'The writer takes any words', and the reader gives them back: none is allowed in its field here.
#[test]
fn any_words_low_byte_first() {
    let words = [0x0403_0201, u32::MAX, 1 << 31, u32::MAX - 1, 0x0807_0605, u32::MAX];
    #[rustfmt::skip]
    let book = [
        0, 1,  0, 0, 0, 6,
        1, 2, 3, 4,  255, 255, 255, 255,  0, 0, 0, 128,  254, 255, 255, 255,  5, 6, 7, 8,
        255, 255, 255, 255,
    ];
    writes(&words, &book);
    reads(&book, &words);
}

// 64 rows are not too many. Row r starts at 2 + 64 * 4 + 24r = 258 + 24r, which needs two bytes.
#[test]
fn a_full_book() {
    let mut book = vec![0, 64];
    for start in (258..).step_by(24).take(64) {
        book.extend([0, 0, (start / 256) as u8, (start % 256) as u8]);
    }
    assert_eq!((&book[2..6], &book[254..]), (&[0, 0, 1, 2][..], &[0, 0, 6, 234][..]));
    book.extend(GOOD.map(|word| [word as u8, 0, 0, 0]).concat().repeat(64));
    assert_eq!(book.len(), 1794);
    reads(&book, &GOOD.repeat(64));
    writes(&GOOD.repeat(64), &book);
}

// A list of bytes may start at any address, and the bytes before it are nobody's to write.
#[test]
fn bytes_at_any_address() {
    for start in 1..8 {
        let mut lent = vec![LENT_BYTE; start + 114];
        let writing = write_book(&words(&A), &mut lent[start..]);
        assert_eq!(writing, Writing::Written { bytes: 114 });
        assert_eq!(lent, [&vec![LENT_BYTE; start], &BOOK_A[..]].concat());
        reads(&lent[start..], &words(&A));
    }
}

// Refusal 20: 'under two bytes'. One byte has no count, whatever it is.
#[test]
fn under_two_bytes() {
    for book in [&[][..], &[0], &[1], &[65], &[255]] {
        reading_refuses_first(book, Refusal::EmptyBook);
    }
}

// Refusal 20: 'or a count of 0', before any look at the length: 2 bytes would be that of no rows.
#[test]
fn a_count_of_0() {
    for book in [&[0, 0][..], &[0, 0, 0], &[0; 30], &with(1, 0)] {
        reading_refuses_first(book, Refusal::EmptyBook);
    }
}

// Refusal 2: 'a count over the row limit', where 21 is due too.
#[test]
fn too_many_rows_in_a_short_file() {
    for book in [&[0, 65][..], &[0, 255], &[1, 0], &[1, 1], &[255, 255], &with(1, 65)] {
        reading_refuses_first(book, Refusal::TooMany);
    }
}

// The same where all else is as if 65 rows were allowed, or where 22 is due too.
#[test]
fn too_many_rows_in_a_file_of_their_length() {
    let mut book = vec![0; 2 + 65 * 28];
    book[1] = 65;
    reading_refuses_first(&book, Refusal::TooMany);
    for row in 0..65 {
        let start = 2 + 65 * 4 + 24 * row;
        book[2 + 4 * row..][..4].copy_from_slice(&(start as u32).to_be_bytes());
    }
    reading_refuses_first(&book, Refusal::TooMany);
}

// The high byte counts: 256 is no 0, 257 no 1, and 0x0400 not the 4 that it is low byte first.
#[test]
fn the_high_byte_of_the_count() {
    let one_row = [&[1, 1, 0, 0, 0, 6][..], &[0; 24]].concat();
    reading_refuses_first(&one_row, Refusal::TooMany);
    reading_refuses_first(&[&[1, 0], &BOOK_A[2..]].concat(), Refusal::TooMany);
    reading_refuses_first(&with(0, 1), Refusal::TooMany);
    reading_refuses_first(&[&[4, 0], &BOOK_A[2..]].concat(), Refusal::TooMany);
}

// Refusal 21: 'any other length', by a byte, by a row, or with the count alone.
#[test]
fn other_lengths() {
    let longer = [&BOOK_A[..], &[0; 28]].concat();
    for bytes in (2..114).chain(115..=142) {
        reading_refuses_first(&longer[..bytes], Refusal::BookLength);
    }
    for count in (1..=64).filter(|&count| count != 4) {
        reading_refuses_first(&with(1, count), Refusal::BookLength);
    }
}

// Refusal 21 comes before 22.
#[test]
fn another_length_and_a_wrong_offset() {
    let book = with(5, 0);
    reading_refuses_first(&book[..113], Refusal::BookLength);
    reading_refuses_first(&[&book[..], &[0]].concat(), Refusal::BookLength);
}

// Refusal 22: each byte of each offset counts, high ones too.
#[test]
fn a_wrong_offset() {
    for (at, &right) in BOOK_A[..18].iter().enumerate().skip(2) {
        for byte in [right + 1, right.wrapping_sub(1), right ^ 0x80] {
            reading_refuses_first(&with(at, byte), Refusal::BookOffset { row: (at - 2) / 4 });
        }
    }
}

// Refusal 22: offsets that would do for other bodies. Each row's own is wanted, also where two rows
// have the same words, as rows 0 and 2 do.
#[test]
fn offsets_of_other_rows() {
    let offsets = |starts: [u8; 4]| {
        let offsets = starts.map(|start| [0, 0, 0, start]);
        [&[0, 4], offsets.as_flattened(), &BOOK_A[18..]].concat()
    };
    reads(&offsets([18, 42, 66, 90]), &words(&A));
    let first_wrong = |starts: [u8; 4], row: usize| {
        reading_refuses_first(&offsets(starts), Refusal::BookOffset { row });
    };
    first_wrong([66, 42, 18, 90], 0);
    first_wrong([18, 42, 90, 66], 2);
    first_wrong([18, 42, 66, 66], 3);
    first_wrong([18, 18, 18, 18], 1);
    first_wrong([42, 66, 90, 114], 0);
    // Counted from the end of the contents, or without the count's two bytes.
    first_wrong([0, 24, 48, 72], 0);
    first_wrong([16, 40, 64, 88], 0);
}

// Refusal 22: an offset low byte first.
#[test]
fn an_offset_turned_round() {
    let mut book = BOOK_A;
    book[10..14].reverse();
    reading_refuses_first(&book, Refusal::BookOffset { row: 2 });
}

// Refusal 4: the reader needs six words a row, the writer 28 bytes a row and two.
#[test]
fn no_room() {
    for room in 0..24 {
        reading_refuses(&BOOK_A, room, Refusal::NoRoom);
    }
    for room in 0..114 {
        writing_refuses(&words(&A), room, Refusal::NoRoom);
    }
}

// Refusal 1: 'no words, or not a multiple of six'; before 2.
#[test]
fn ragged_words() {
    for count in [0, 1, 5, 7, 11, 64 * 6 - 1, 64 * 6 + 1, 65 * 6 + 1] {
        writing_refuses_first(&vec![1; count], Refusal::Ragged);
    }
}

// Refusal 2: more than 64 rows, also so many that the count's two bytes would say 0, 1 or 64.
#[test]
fn too_many_rows_to_write() {
    for rows in [65, 66, 255, 256, 257, 65_535, 65_536, 65_537, 65_600] {
        writing_refuses_first(&vec![1; rows * 6], Refusal::TooMany);
    }
}
