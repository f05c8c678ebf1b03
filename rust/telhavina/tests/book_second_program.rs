//! Books, read and written by the library and by the second program: the reply, what it carries,
//! and every word or byte of the lent list must be the same; and what is written is read back,
//! what is read written again. `-- --nocapture` shows how often each reply kind came up.

mod compare;
mod tally;

use compare::{kind, number, refused, same, Outcome};
use second::Reply;
use tables::{any_rows, book_of, lent_bytes, read_case, write_case, Prng, ReadCase, WriteCase};
use tally::Tally;
use telhavina::{Reading, Writing};

/// Made-up cases of each kind; their seeds are 0 to one less.
const CASES: u64 = 60_000;
/// How often each reply kind must come up at least.
const LEAST: u32 = 1_000;
/// Read; refusals 20, 2, 21 and 4; and refusal 22 with row 0 and with another.
const READING_KINDS: usize = 7;
/// Written, and refusals 1, 2 and 4.
const WRITING_KINDS: usize = 4;

/// Numbers of rows whose books are tried in every length.
const SIZES: [u32; 4] = [1, 2, 5, 64];
/// Words for as many rows as a book can have, and some to spare.
const AMPLE: usize = 64 * 6 + 5;
/// What a lent word holds before the call, where it need not be made up.
const LENT: u32 = 0xC0DE_C0DE;

/// The library's reading as the second program would say it.
fn as_reply(reading: Reading) -> Reply {
    match reading {
        Reading::Read { rows } => Reply::BookRead(number(rows)),
        Reading::Refused(refusal) => refused(refusal),
    }
}

/// So with its writing.
fn written_as_reply(writing: Writing) -> Reply {
    match writing {
        Writing::Written { bytes } => Reply::BookWritten(number(bytes)),
        Writing::Refused(refusal) => refused(refusal),
    }
}

/// Both programs give the same reply and leave the same lent words: these are given back.
#[track_caller]
fn both_read(case: &ReadCase) -> Outcome {
    let (mut words, mut expected) = (case.words.clone(), case.words.clone());
    let reply = as_reply(telhavina::read_book(&case.book, &mut words));
    let expected_reply = second::read_book(&case.book, &mut expected);
    same(case, (reply, words), (expected_reply, expected))
}

/// Both programs give the same reply and leave the same lent bytes: these are given back.
#[track_caller]
fn both_write(case: &WriteCase) -> Outcome<u8> {
    let (mut book, mut expected) = (case.book.clone(), case.book.clone());
    let reply = written_as_reply(telhavina::write_book(&case.words, &mut book));
    let expected_reply = second::write_book(&case.words, &mut expected);
    same(case, (reply, book), (expected_reply, expected))
}

/// Both programs read these bytes alike, with room for any book and with none.
#[track_caller]
fn both_read_bytes(book: &[u8]) -> Outcome {
    let with_room = |room: usize| {
        both_read(&ReadCase { seed: 0, book: book.to_vec(), words: vec![LENT; room] })
    };
    with_room(0);
    with_room(AMPLE)
}

/// A good book of so many rows, of any words.
fn book_of_rows(rows: u32) -> Vec<u8> {
    book_of(&any_rows(rows, &mut Prng::new(rows.into())))
}

#[test]
fn made_up_books() {
    let mut tally = Tally::default();
    for case in (0..CASES).map(read_case) {
        tally.count(kind(both_read(&case).0));
    }
    tally.print("made-up books");
    tally.has(READING_KINDS, LEAST);
}

#[test]
fn made_up_words() {
    let mut tally = Tally::default();
    for case in (0..CASES).map(write_case) {
        tally.count(kind(both_write(&case).0));
    }
    tally.print("made-up words");
    tally.has(WRITING_KINDS, LEAST);
}

// 'What it makes the reader gives back'.
#[test]
fn what_is_written_is_read_back() {
    let mut times = 0;
    for mut case in (0..CASES).map(write_case) {
        let Writing::Written { bytes } = telhavina::write_book(&case.words, &mut case.book) else {
            continue;
        };
        let mut words = vec![LENT; case.words.len() + 1];
        let reading = telhavina::read_book(&case.book[..bytes], &mut words);
        assert_eq!(reading, Reading::Read { rows: case.words.len() / 6 }, "{case}");
        assert_eq!(words, [&case.words[..], &[LENT]].concat(), "{case}");
        times += 1;
    }
    println!("{times} books written and read back");
    assert!(times >= LEAST);
}

// 'And the other way round'.
#[test]
fn what_is_read_is_written_again() {
    let mut times = 0;
    for mut case in (0..CASES).map(read_case) {
        let Reading::Read { rows } = telhavina::read_book(&case.book, &mut case.words) else {
            continue;
        };
        let lent = lent_bytes(case.book.len() + 1, &mut Prng::new(case.seed));
        let mut book = lent.clone();
        let writing = telhavina::write_book(&case.words[..6 * rows], &mut book);
        assert_eq!(writing, Writing::Written { bytes: case.book.len() }, "{case}");
        assert_eq!(book, [&case.book[..], &lent[case.book.len()..]].concat(), "{case}");
        times += 1;
    }
    println!("{times} books read and written again");
    assert!(times >= LEAST);
}

// 'The file ends with the last': of all beginnings and continuations of a book only it is one.
#[test]
fn every_length() {
    let mut tally = Tally::default();
    for rows in SIZES {
        let book = book_of_rows(rows);
        let longer = [&book[..], &lent_bytes(40, &mut Prng::new(0))].concat();
        for bytes in 0..=longer.len() {
            let (reply, _) = both_read_bytes(&longer[..bytes]);
            let expected = match bytes {
                0..=1 => Reply::EmptyBook,
                _ if bytes == book.len() => Reply::BookRead(rows),
                _ => Reply::BookLength,
            };
            assert_eq!(reply, expected, "{bytes} bytes of a book of {rows} rows");
            tally.count(kind(reply));
        }
    }
    tally.print("every beginning of a book, and up to 40 bytes behind it");
}

// Every bit of the contents counts, and every bit of a body is a bit of a word. Of the count's 16
// bits, ten make it more than 64; the other six give another allowed count.
#[test]
fn every_bit_of_five_rows() {
    let mut tally = Tally::default();
    let good = book_of_rows(5);
    let (_, words) = both_read_bytes(&good);
    for bit in 0..8 * good.len() {
        let mut book = good.clone();
        book[bit / 8] ^= 1 << (bit % 8);
        let (reply, changed) = both_read_bytes(&book);
        let turned: u32 = words.iter().zip(&changed).map(|(a, b)| (a ^ b).count_ones()).sum();
        assert!(turned == 1 || reply != Reply::BookRead(5), "bit {bit}");
        tally.count(kind(reply));
    }
    tally.print("a book of five rows with one bit turned over");
    let expected = [
        ("2 too many", 10),
        ("21 book length", 6),
        ("22 book offset, row 0", 32),
        ("22 book offset, later", 4 * 32),
        ("book read", 5 * 24 * 8),
    ];
    assert_eq!(tally, Tally::from(expected));
}

#[test]
fn every_count() {
    let mut tally = Tally::default();
    let mut book = book_of_rows(5);
    for count in 0..=u16::MAX {
        book[..2].copy_from_slice(&count.to_be_bytes());
        tally.count(kind(both_read_bytes(&book).0));
    }
    tally.print("a book of five rows with every count");
    let expected = [
        ("20 empty book", 1),
        ("2 too many", 65_535 - 64),
        ("21 book length", 63),
        ("book read", 1),
    ];
    assert_eq!(tally, Tally::from(expected));
}

// 'With the first such row': from each row on, this one alone or all behind it are wrong too.
#[test]
fn every_first_wrong_offset() {
    for by in [1, 24, 1 << 8, 1 << 16, 1 << 24, 1u32.wrapping_neg(), 24u32.wrapping_neg()] {
        for (row, last) in (0..64).flat_map(|row| [(row, row), (row, 63)]) {
            let mut book = book_of_rows(64);
            for offset in &mut book[2..].as_chunks_mut().0[row..=last] {
                *offset = u32::from_be_bytes(*offset).wrapping_add(by).to_be_bytes();
            }
            assert_eq!(both_read_bytes(&book).0, Reply::BookOffset(number(row)));
        }
    }
}

// Refusal 4 comes up to the last place that is missing, and places to spare are left alone.
#[test]
fn every_room() {
    for rows in SIZES {
        let prng = &mut Prng::new(0);
        let words = any_rows(rows, prng);
        let book = book_of(&words);
        for room in 0..words.len() + 10 {
            let lent = vec![LENT; room];
            let (reply, _) = both_read(&ReadCase { seed: 0, book: book.clone(), words: lent });
            assert_eq!(reply == Reply::NoRoom, room < words.len(), "{rows} rows, {room} words");
        }
        for room in 0..book.len() + 10 {
            let lent = lent_bytes(room, prng);
            let (reply, _) = both_write(&WriteCase { seed: 0, words: words.clone(), book: lent });
            assert_eq!(reply == Reply::NoRoom, room < book.len(), "{rows} rows, {room} bytes");
        }
    }
}
