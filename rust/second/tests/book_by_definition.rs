//! The books of the second program against the words of request L1, byte by byte and by sums, over
//! made-up words and books; and its listing against its own finder and judge.

use second::{find, judge, listing, read_book, write_book, Reply};
use tables::{read_case, write_case};

/// Made-up cases of each kind; their seeds are 0 to one less.
const CASES: u64 = 20_000;
/// How many of them must have been answered, and how many refused.
const ENOUGH: u32 = 5_000;

/// The byte at this place of the book of these words.
fn byte(words: &[u32], at: usize) -> u8 {
    let rows = words.len() / 6;
    let contents = 2 + 4 * rows;
    let digit = |number: usize, place: usize| (number / 256usize.pow(place as u32) % 256) as u8;
    if at < 2 {
        digit(rows, 1 - at)
    } else if at < contents {
        let (row, place) = ((at - 2) / 4, (at - 2) % 4);
        digit(contents + 24 * row, 3 - place)
    } else {
        let (word, place) = ((at - contents) / 4, (at - contents) % 4);
        digit(words[word] as usize, place)
    }
}

/// The words that the last 24 of each 28 bytes make, if there are 1 to 64 times 28 and two.
fn words_at_the_end(book: &[u8]) -> Option<Vec<u32>> {
    let rows = (1..=64).find(|rows| 2 + 28 * rows == book.len())?;
    let word =
        |bytes: &[u8]| bytes.iter().rev().fold(0, |word, &byte| 256 * word + u32::from(byte));
    Some(book[2 + 4 * rows..].chunks(4).map(word).collect())
}

/// The words of which this is the book, if it is one of any.
fn words_of(book: &[u8]) -> Option<Vec<u32>> {
    let words = words_at_the_end(book)?;
    (0..book.len()).all(|at| book[at] == byte(&words, at)).then_some(words)
}

/// The first of 20, 2, 21 and 22 that is due for bytes that are no book.
fn refusal(book: &[u8]) -> Reply {
    let count = |high: u8, low: u8| 256 * usize::from(high) + usize::from(low);
    let rows = if let [high, low, ..] = *book { count(high, low) } else { 0 };
    match rows {
        0 => Reply::EmptyBook,
        65.. => Reply::TooMany,
        _ if book.len() != 2 + 28 * rows => Reply::BookLength,
        _ => {
            let some_words = vec![0; 6 * rows];
            let wrong = (2..).find(|&at| book[at] != byte(&some_words, at));
            Reply::BookOffset((wrong.expect("an offset is wrong") as u32 - 2) / 4)
        }
    }
}

/// Counts answered and refused cases, and wants enough of both.
fn enough(what: &str, answered: u32) {
    let refused = CASES as u32 - answered;
    println!("{what}: {answered} answered, {refused} refused");
    assert!(answered >= ENOUGH && refused >= ENOUGH, "too few of one kind");
}

// 'What it makes the reader gives back, and the other way round': the books that are read, or have
// no room, are those that can be written.
#[test]
fn a_book_is_what_can_be_written() {
    let mut read = 0;
    for case in (0..CASES).map(read_case) {
        let mut expected = case.words.clone();
        let expected_reply = match words_of(&case.book) {
            None => refusal(&case.book),
            Some(words) if words.len() > case.words.len() => Reply::NoRoom,
            Some(words) => {
                read += 1;
                expected[..words.len()].copy_from_slice(&words);
                Reply::BookRead(words.len() as u32 / 6)
            }
        };
        let mut words = case.words.clone();
        assert_eq!(
            (read_book(&case.book, &mut words), words),
            (expected_reply, expected),
            "{case}"
        );
    }
    enough("reading", read);
}

#[test]
fn written_byte_by_byte() {
    let mut written = 0;
    for case in (0..CASES).map(write_case) {
        let (words, bytes) = (case.words.len(), 2 + case.words.len() / 6 * 28);
        let mut expected = case.book.clone();
        let expected_reply = match words {
            _ if words == 0 || words % 6 != 0 => Reply::Ragged,
            _ if words > 64 * 6 => Reply::TooMany,
            _ if bytes > case.book.len() => Reply::NoRoom,
            _ => {
                written += 1;
                (0..bytes).for_each(|at| expected[at] = byte(&case.words, at));
                Reply::BookWritten(bytes as u32)
            }
        };
        let mut book = case.book.clone();
        assert_eq!(
            (write_book(&case.words, &mut book), book),
            (expected_reply, expected),
            "{case}"
        );
    }
    enough("writing", written);
}

/// The number in the line of a refusal.
fn line_number(refusal: Reply) -> u32 {
    match refusal {
        Reply::TooMany => 2,
        Reply::BadRow { .. } => 3,
        Reply::NoOrder { .. } => 8,
        Reply::EmptyBook => 20,
        Reply::BookLength => 21,
        Reply::BookOffset(_) => 22,
        other => panic!("{other:?} is no answer to a book with room lent"),
    }
}

// 'Finds an order and judges it, and writes a line a row, highest first: row, space, figure.'
#[test]
fn the_listing_line_by_line() {
    let mut listed = 0;
    for case in (0..CASES).map(read_case) {
        let table = words_of(&case.book);
        let mut order = vec![0; table.as_ref().map_or(0, |table| table.len() / 6)];
        let reply = table.as_ref().map(|table| find(table, &mut order));
        let (Some(table), Some(Reply::Found(_))) = (table, reply) else {
            let refusal = reply.unwrap_or_else(|| refusal(&case.book));
            assert_eq!(
                listing(&case.book),
                format!("refused {}\n", line_number(refusal)),
                "{case}"
            );
            continue;
        };
        listed += 1;
        let mut figures = vec![0; order.len()];
        assert_eq!(judge(&table, &order, &mut figures), Reply::Passed, "{case}");
        let text = listing(&case.book);
        assert!(text.ends_with('\n') && text.lines().count() == order.len(), "{case}");
        for (line, row) in text.lines().zip(order) {
            let figure = figures[row as usize];
            assert_eq!(line, [row.to_string(), figure.to_string()].join(" "), "{case}");
        }
    }
    println!("listings: {listed} with an order");
    assert!(listed >= ENOUGH / 5, "too few with an order");
}
