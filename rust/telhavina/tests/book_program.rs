//! The program of request L1: what it writes for a book on its standard input, beside what the
//! second program says of that book. `-- --nocapture` shows how often each kind of answer came up.

mod book_a;
mod program;
mod tally;

use std::process::Stdio;

use book_a::{with, BOOK_A};
use program::{of_endless, of_file, of_input, of_pieces};
use second::listing;
use tables::{book_of, lent_bytes, read_case, Prng};
use tally::Tally;

/// Made-up books; their seeds are 0 to one less.
const CASES: u64 = 800;
/// How often each kind of answer must come up at least.
const LEAST: u32 = 20;

/// The lines of refusals that a book can bring about: 1 and 4 are none of them, as a book that is
/// read has whole rows and there is room for them.
const REFUSED: [&str; 6] =
    ["refused 2\n", "refused 3\n", "refused 8\n", "refused 20\n", "refused 21\n", "refused 22\n"];

/// The kind of an answer, for counting.
fn kind(answer: &str) -> &'static str {
    REFUSED.into_iter().find(|line| *line == answer).map_or("an order", str::trim_end)
}

/// The program and the second program both write this for a book, in a file and through a pipe.
#[track_caller]
fn writes(name: &str, book: &[u8], expected: &str) {
    assert_eq!(listing(book), expected, "the second program");
    assert_eq!(of_file(name, book), expected, "the program on a file");
    assert_eq!(of_pieces(&[book]), expected, "the program on a pipe");
}

// 'For table a of document 01 the whole output is the four lines'.
#[test]
fn table_a() {
    writes("table_a.book", &BOOK_A, "3 200\n1 325\n2 450\n0 575\n");
}

// Byte 5 is the low byte of row 0's offset, byte 22 that of its form. Byte 59 is a 1 that makes row
// 1's deadline 256 + 94: without it that is less than the row's own length.
#[test]
fn one_of_each_refusal() {
    writes("refused_20.book", &with(1, 0), "refused 20\n");
    writes("refused_2.book", &with(1, 65), "refused 2\n");
    writes("refused_21.book", &BOOK_A[..113], "refused 21\n");
    writes("refused_22.book", &with(5, 17), "refused 22\n");
    writes("refused_3.book", &with(22, 3), "refused 3\n");
    writes("refused_8.book", &with(59, 0), "refused 8\n");
}

#[test]
fn an_empty_input() {
    writes("empty.book", &[], "refused 20\n");
    assert_eq!(of_input(Stdio::null()), "refused 20\n");
}

// 64 rows of C 1 that come once: row 0 takes the lowest place, row 1 the next, and so on, and at
// place p from the highest the figure is 2 + p.
#[test]
fn a_full_book() {
    let lines: String = (0..64).map(|place| format!("{} {}\n", 63 - place, 2 + place)).collect();
    writes("full.book", &book_of(&[0, 0, 1, 1000, 1000, 0].repeat(64)), &lines);
}

// The greatest figure there can be. Rows of C 1 leave one bit time in 2 free, one in 4, and so on
// to 64, and then four at a time one in 320, in 1,600 and so on: the lowest row has to wait for the
// one that is free in 1,000,000.
#[test]
fn a_figure_of_1_000_000() {
    let powers = (1..=6).map(|power| 1 << power);
    let fives = (1..=6).flat_map(|power| [64 * 5u32.pow(power); 4]);
    let table: Vec<u32> = powers.chain(fives).flat_map(|t| [0, 0, 1, t, t, 0]).collect();
    let book = book_of(&table);
    let lines = listing(&book);
    assert!(lines.starts_with("0 2\n1 4\n2 8\n") && lines.ends_with("\n26 1000000\n"), "{lines}");
    writes("greatest_figure.book", &book, &lines);
}

#[test]
fn made_up_books() {
    let mut tally = Tally::default();
    for case in (0..CASES).map(read_case) {
        let expected = listing(&case.book);
        let answer = match case.seed % 2 {
            0 => of_file("made_up.book", &case.book),
            _ => of_pieces(&[&case.book]),
        };
        assert_eq!(answer, expected, "{case}");
        tally.count(kind(&answer));
    }
    tally.print("made-up books");
    tally.has(1 + REFUSED.len(), LEAST);
}

// A pipe may give fewer bytes than are asked for, and that is not yet the book's end.
#[test]
fn in_pieces() {
    for cut in [1, 2, 3, 17, 18, 100, 113] {
        let (first, second) = BOOK_A.split_at(cut);
        assert_eq!(of_pieces(&[first, second]), listing(&BOOK_A), "cut at {cut}");
        assert_eq!(of_pieces(&[&BOOK_A, first]), "refused 21\n", "{cut} bytes behind the book");
    }
    let bytes: Vec<&[u8]> = BOOK_A[..30].chunks(1).chain([&BOOK_A[30..]]).collect();
    assert_eq!(of_pieces(&bytes), listing(&BOOK_A));
}

/// What goes on for longer than any book: good ones over and over, nothing but 0 or 255, and what
/// is made up, with an allowed count.
fn beginnings_of_long_inputs() -> [Vec<u8>; 5] {
    let full = book_of(&[0, 0, 1, 1000, 1000, 0].repeat(64));
    let made_up = lent_bytes(10_000, &mut Prng::new(0));
    [BOOK_A.to_vec(), full, vec![0; 10_000], vec![255; 10_000], [&[0, 7], &made_up[..]].concat()]
}

#[test]
fn much_longer_than_any_book() {
    for (bytes, name) in beginnings_of_long_inputs().iter().zip('a'..) {
        let long = bytes.repeat((4 << 20) / bytes.len());
        writes(&format!("long_{name}.book"), &long, &listing(&long));
    }
}

// The program ends by itself, for nothing behind the longest book can make a difference.
#[test]
fn without_end() {
    for bytes in beginnings_of_long_inputs() {
        let expected = listing(&bytes.repeat(20));
        assert_eq!(of_endless(&bytes), expected);
    }
}
