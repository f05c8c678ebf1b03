//! Books made by hand after request L1, put to the second program.

use second::{listing, read_book, write_book, Reply};

/// What a lent word and a lent byte hold before the call; no word of these books is the same.
const LENT: u32 = 0xC0DE_C0DE;
const LENT_BYTE: u8 = 0xA5;
/// Places lent past those that the answer needs.
const SPARE: usize = 3;

/// The words of table a of document 01.
const TABLE_A: [u32; 24] = [
    0, 0, 125, 1000, 750, 0, // row 0
    0, 0, 125, 1000, 350, 0, // row 1
    0, 0, 125, 1000, 750, 0, // row 2
    0, 0, 75, 1000, 1000, 0, // row 3
];

/// Its book. The contents take 2 + 4 * 4 = 18 bytes, so the rows start at 18, 42, 66 and 90; 750 is
/// 2 * 256 + 238, 1000 is 3 * 256 + 232, and 350 is 256 + 94.
#[rustfmt::skip]
const BOOK_A: [u8; 114] = [
    0, 4,
    0, 0, 0, 18,  0, 0, 0, 42,  0, 0, 0, 66,  0, 0, 0, 90,
    0, 0, 0, 0,  0, 0, 0, 0,  125, 0, 0, 0,  232, 3, 0, 0,  238, 2, 0, 0,  0, 0, 0, 0,
    0, 0, 0, 0,  0, 0, 0, 0,  125, 0, 0, 0,  232, 3, 0, 0,   94, 1, 0, 0,  0, 0, 0, 0,
    0, 0, 0, 0,  0, 0, 0, 0,  125, 0, 0, 0,  232, 3, 0, 0,  238, 2, 0, 0,  0, 0, 0, 0,
    0, 0, 0, 0,  0, 0, 0, 0,   75, 0, 0, 0,  232, 3, 0, 0,  232, 3, 0, 0,  0, 0, 0, 0,
];

/// The bodies of these rows, whose words are below 256.
fn bodies(rows: &[[u8; 6]]) -> Vec<u8> {
    rows.as_flattened().iter().flat_map(|&word| [word, 0, 0, 0]).collect()
}

/// The book of this one row, whose words are below 256.
fn book_of_one(row: [u8; 6]) -> Vec<u8> {
    [&[0, 1, 0, 0, 0, 6][..], &bodies(&[row])].concat()
}

/// The book of table a with this byte in this place.
fn with(at: usize, byte: u8) -> Vec<u8> {
    let mut book = BOOK_A.to_vec();
    book[at] = byte;
    book
}

/// The reply, and a lent list with room for so many words.
fn read(book: &[u8], room: usize) -> (Reply, Vec<u32>) {
    let mut words = vec![LENT; room];
    let reply = read_book(book, &mut words);
    (reply, words)
}

/// The reply, and a lent list with room for so many bytes.
fn written(words: &[u32], room: usize) -> (Reply, Vec<u8>) {
    let mut book = vec![LENT_BYTE; room];
    let reply = write_book(words, &mut book);
    (reply, book)
}

/// The book is refused so with so much room, and no word is altered.
#[track_caller]
fn reading_refuses(book: &[u8], room: usize, reply: Reply) {
    assert_eq!(read(book, room), (reply, vec![LENT; room]));
}

/// The words are refused so with so much room, and no byte is altered.
#[track_caller]
fn writing_refuses(words: &[u32], room: usize, reply: Reply) {
    assert_eq!(written(words, room), (reply, vec![LENT_BYTE; room]));
}

#[test]
fn the_book_of_table_a() {
    for spare in [0, SPARE] {
        let words = [&TABLE_A[..], &vec![LENT; spare]].concat();
        assert_eq!(read(&BOOK_A, 24 + spare), (Reply::BookRead(4), words));
        let book = [&BOOK_A[..], &vec![LENT_BYTE; spare]].concat();
        assert_eq!(written(&TABLE_A, 114 + spare), (Reply::BookWritten(114), book));
    }
}

#[test]
fn any_words_low_byte_first() {
    let words = [0x0403_0201, u32::MAX, 0, 1 << 31, 0x0807_0605, 1];
    #[rustfmt::skip]
    let book = [
        0, 1,  0, 0, 0, 6,
        1, 2, 3, 4,  255, 255, 255, 255,  0, 0, 0, 0,  0, 0, 0, 128,  5, 6, 7, 8,  1, 0, 0, 0,
    ];
    assert_eq!(written(&words, 30), (Reply::BookWritten(30), book.to_vec()));
    assert_eq!(read(&book, 6), (Reply::BookRead(1), words.to_vec()));
}

// The contents of 64 rows take 258 bytes, and the last row starts at 258 + 63 * 24 = 1770: these
// offsets need two bytes.
#[test]
fn a_full_book() {
    let words: Vec<u32> = (0..384).collect();
    let (reply, book) = written(&words, 1794);
    assert_eq!(reply, Reply::BookWritten(1794));
    assert_eq!((&book[..6], &book[254..258]), (&[0, 64, 0, 0, 1, 2][..], &[0, 0, 6, 234][..]));
    assert_eq!(read(&book, 384), (Reply::BookRead(64), words));
}

// Refusal 20: 'under two bytes or a count of 0', at whatever length and room.
#[test]
fn empty_books() {
    for book in [&[][..], &[4], &BOOK_A[..1], &[0, 0], &[0, 0, 0], &with(1, 0)] {
        reading_refuses(book, 24 + SPARE, Reply::EmptyBook);
        reading_refuses(book, 0, Reply::EmptyBook);
    }
}

// Refusal 2: 'a count over the row limit', also in a file that is short, and in the high byte.
#[test]
fn too_many_rows() {
    for book in [&[0, 65][..], &[1, 0], &[255, 255], &with(1, 65), &with(0, 1)] {
        reading_refuses(book, 24 + SPARE, Reply::TooMany);
        reading_refuses(book, 0, Reply::TooMany);
    }
    writing_refuses(&[1; 65 * 6], 65 * 28 + 2, Reply::TooMany);
    writing_refuses(&[1; 65 * 6], 0, Reply::TooMany);
}

// Refusal 21: 'any other length', before any look at the offsets.
#[test]
fn other_lengths() {
    let longer = [&BOOK_A[..], &[0]].concat();
    for book in [&[0, 64][..], &[0, 4], &BOOK_A[..113], &longer, &with(1, 3), &with(1, 5)] {
        reading_refuses(book, 24 + SPARE, Reply::BookLength);
        reading_refuses(book, 0, Reply::BookLength);
    }
    let mut wrong_offset_too = longer;
    wrong_offset_too[5] = 19;
    reading_refuses(&wrong_offset_too, 24, Reply::BookLength);
}

// Refusal 22: 'a wrong offset, with the first such row'. Byte 5 is the low byte of row 0's offset,
// byte 14 the high byte of row 3's.
#[test]
fn wrong_offsets() {
    reading_refuses(&with(5, 17), 24, Reply::BookOffset(0));
    reading_refuses(&with(9, 66), 24, Reply::BookOffset(1));
    reading_refuses(&with(14, 1), 24, Reply::BookOffset(3));
    reading_refuses(&with(14, 1), 0, Reply::BookOffset(3));
    let mut two = with(9, 18);
    two[17] = 0;
    reading_refuses(&two, 24, Reply::BookOffset(1));
}

// Refusal 4: 'no room', for six words a row or for the whole book.
#[test]
fn no_room() {
    (0..24).for_each(|room| reading_refuses(&BOOK_A, room, Reply::NoRoom));
    (0..114).for_each(|room| writing_refuses(&TABLE_A, room, Reply::NoRoom));
}

// Refusal 1: no words, or not a multiple of six; before 2 and 4.
#[test]
fn ragged_words() {
    for words in [0, 1, 5, 7, 65 * 6 + 1] {
        writing_refuses(&vec![1; words], 2000, Reply::Ragged);
        writing_refuses(&vec![1; words], 0, Reply::Ragged);
    }
}

// 'For table a of document 01 the whole output is the four lines'.
#[test]
fn the_lines_of_table_a() {
    assert_eq!(listing(&BOOK_A), "3 200\n1 325\n2 450\n0 575\n");
}

// Two rows of FIFO 1 and one of priority: the FIFO passes at the lowest place, where w is
// 20 + 32 - 12 + 16 = 56 and its figure 56 + 12. The priority row above it has w = 20 and 20 + 16.
#[test]
fn the_lines_of_a_fifo() {
    let contents = [0, 3, 0, 0, 0, 14, 0, 0, 0, 38, 0, 0, 0, 62];
    let rows = [[1, 0, 20, 200, 200, 0], [1, 0, 12, 200, 120, 0], [0, 0, 16, 100, 100, 0]];
    let book = [&contents[..], &bodies(&rows)].concat();
    assert_eq!(listing(&book), "2 36\n0 68\n1 68\n");
}

// 'A refusal is one line': of the book, of its table, or for want of an order.
#[test]
fn refused_in_one_line() {
    assert_eq!(listing(&[]), "refused 20\n");
    assert_eq!(listing(&[0, 65]), "refused 2\n");
    assert_eq!(listing(&BOOK_A[..113]), "refused 21\n");
    assert_eq!(listing(&with(5, 17)), "refused 22\n");
    assert_eq!(listing(&book_of_one([0, 3, 10, 100, 100, 0])), "refused 3\n");
    assert_eq!(listing(&book_of_one([0, 0, 10, 19, 19, 0])), "refused 8\n");
    assert_eq!(listing(&book_of_one([0, 0, 10, 20, 20, 0])), "0 20\n");
}
