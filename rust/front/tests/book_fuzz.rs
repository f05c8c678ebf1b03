//! Thousands of made-up books and tables, good ones and damaged ones: none makes the front panic,
//! each that is turned down leaves nothing on the standard output, and each that comes through comes
//! back as it was.

mod common;

use std::panic::{catch_unwind, AssertUnwindSafe};

use common::books::{any_words, book, damage};
use common::made_up::csv;
use common::tally::Tally;
use common::{file, run_here};
use front::answer::{self, Answer};
use front::fault::Fault;
use front::table::{self, Table, MOST_ROWS};
use tables::Prng;
use telhavina::Reading;

const FILES: u64 = 6_000;
/// The kinds of bytes that are no book, or a damaged one.
const NO_BOOK: [&str; 5] = ["no book", "refusal 2", "refusal 20", "refusal 21", "refusal 22"];

/// What this command writes, or the line on why it writes nothing: never both.
fn written(args: &[&str], input: &[u8]) -> Result<Vec<u8>, String> {
    let said = run_here(args, input);
    match said.status {
        0 => {
            assert_eq!(said.err, "");
            Ok(said.out)
        }
        2 => {
            assert!(said.out.is_empty() && said.err.lines().count() == 1, "{said:?}");
            Err(said.err)
        }
        other => panic!("status {other}"),
    }
}

/// What pack makes of this text; the file is this test's own.
fn pack(test: &str, text: &[u8]) -> Result<Vec<u8>, String> {
    written(&["pack", &file(&format!("{test}.fuzz.csv"), text)], b"")
}

fn unpack(book: &[u8]) -> Result<Vec<u8>, String> {
    written(&["unpack"], book)
}

/// The number of the refusal in this line, if it is one.
fn number(line: &str) -> Option<u32> {
    let (_, after) = line.split_once("refusal ")?;
    after.split(':').next()?.parse().ok()
}

/// Runs the check for each seed, and says which seed it was if it fails.
fn for_each_seed(mut check: impl FnMut(u64, &mut Prng)) {
    for seed in 0..FILES {
        let checked = catch_unwind(AssertUnwindSafe(|| check(seed, &mut Prng::new(seed))));
        assert!(checked.is_ok(), "seed {seed}");
    }
}

/// The answers on this table, with the number of the refusal alone where there is none.
fn answers(table: &Table, order: &str) -> [Result<Answer, Option<u32>>; 3] {
    let number = |fault: Fault| fault.number;
    [answer::judge(table, None), answer::judge(table, Some(order)), answer::find(table)]
        .map(|answer| answer.map_err(number))
}

/// The answers on the book are those on the CSV.
fn check_answers(text: &str, book: &[u8], order: &[u32], tally: &mut Tally) {
    let order = order.iter().map(u32::to_string).collect::<Vec<_>>().join(",");
    let of_csv = table::of_file(text.as_bytes()).expect("a table");
    let of_book = table::of_file(book).expect("a table");
    assert_eq!(of_book.words(), of_csv.words());
    let answers_on_csv = answers(&of_csv, &order);
    assert_eq!(answers(&of_book, &order), answers_on_csv, "{order}");
    for answer in answers_on_csv {
        tally.count(match answer {
            Ok(answer) if answer.is_good() => "good".to_string(),
            Ok(_) => "not good".to_string(),
            Err(number) => format!("refusal {}", number.unwrap_or_default()),
        });
    }
}

// CSV, book, CSV, book: the words come through, and the second book is the first.
#[test]
fn there_and_back() {
    let (mut tally, mut kinds) = (Tally::default(), Tally::default());
    for_each_seed(|seed, prng| {
        let case = tables::case(seed);
        let Some(text) = csv(&case.table, prng) else { return kinds.count("no CSV") };
        let made = match pack("back", text.as_bytes()) {
            Ok(made) => made,
            Err(line) => {
                assert!(number(&line) == Some(2) && case.table.len() > 6 * MOST_ROWS, "{line}");
                return kinds.count("refusal 2");
            }
        };
        assert_eq!(made, book(&case.table));
        let again = unpack(&made).expect("a CSV");
        assert_eq!(table::read(&again).expect("a table").words(), case.table);
        assert_eq!(pack("back", &again).as_ref(), Ok(&made));
        check_answers(&text, &made, &case.order, &mut tally);
        kinds.count("there, back");
    });
    kinds.expect("tables", &["there, back", "refusal 2"]);
    let all = ["good", "not good", "refusal 3", "refusal 5", "refusal 6", "refusal 7"];
    tally.expect("answers on their books", &all);
}

/// What starts like a book is none only where no two bytes make a NUL of UTF-16.
fn looks_like_utf_16(bytes: &[u8], line: &str) -> String {
    assert!(line.contains("looks like UTF-16 text, not a book"), "{line}");
    assert!(bytes.len() >= 4 && bytes.chunks(2).all(|unit| unit != [0, 0]), "{bytes:?}");
    "UTF-16".to_string()
}

/// Unpacking these bytes: they come back from the CSV, or the reason is the one that is due.
fn check_unpack(test: &str, bytes: &[u8]) -> String {
    let mut words = [0; 6 * MOST_ROWS];
    let reading = telhavina::read_book(bytes, &mut words);
    let line = match unpack(bytes) {
        Ok(text) => {
            assert!(matches!(reading, Reading::Read { .. }));
            assert_eq!(pack(test, &text).as_deref(), Ok(bytes));
            return "unpacked".to_string();
        }
        Err(line) => line,
    };
    match (reading, number(&line)) {
        (Reading::Refused(refusal), Some(number)) => {
            assert_eq!(refusal.number(), number);
            format!("refusal {number}")
        }
        (Reading::Refused(_), None) => {
            let is_none = line.contains("not a book") || line.contains("neither a book");
            assert!(is_none, "{line}");
            match bytes.starts_with(b"\0") {
                true => looks_like_utf_16(bytes, &line),
                false => "no book".to_string(),
            }
        }
        (Reading::Read { rows }, number) => {
            let forms = words.iter().skip(1).step_by(6).take(rows);
            let row = forms.copied().position(|form| form > 2).expect("a form for no CSV");
            assert!(line.contains(&format!(": row {row}, length: `form ")), "{line}");
            assert_eq!(number, None);
            "no CSV".to_string()
        }
    }
}

/// Judging and finding these bytes: an answer, or a line on why there is none.
fn check_ask(test: &str, bytes: &[u8]) {
    let path = file(&format!("{test}.fuzz.book"), bytes);
    for command in ["judge", "find"] {
        let said = run_here(&[command, &path], b"");
        assert_eq!(said.out.is_empty(), said.status == 2, "{said:?}");
        assert_eq!(said.err.is_empty(), said.status < 2, "{said:?}");
        let json = run_here(&[command, &path, "--json"], b"");
        let line = String::from_utf8(json.out).expect("UTF-8");
        common::json::read(&line);
        assert_eq!((json.err.as_str(), json.status), ("", said.status));
    }
}

#[test]
fn damaged_books() {
    let mut tally = Tally::default();
    for_each_seed(|_, prng| {
        let mut bytes = book(&any_words(prng));
        damage(&mut bytes, prng);
        tally.count(check_unpack("damaged", &bytes));
        check_ask("damaged", &bytes);
    });
    tally.expect("damaged books", &[&NO_BOOK[..], &["unpacked", "no CSV"]].concat());
}

#[test]
fn any_bytes() {
    let mut tally = Tally::default();
    for_each_seed(|_, prng| {
        let length = prng.pick(&[0, 1, 2, 3, 29, 30, 31, 58, 100, 2000]);
        let mut bytes: Vec<u8> = (0..length).map(|_| prng.word() as u8).collect();
        // As far as the first byte goes, many of them are books.
        if prng.chance(60) {
            bytes.iter_mut().take(1).for_each(|byte| *byte = 0);
        }
        if prng.chance(60) {
            bytes.iter_mut().skip(1).take(1).for_each(|byte| *byte = prng.between(0, 3) as u8);
        }
        tally.count(check_unpack("any", &bytes));
        check_ask("any", &bytes);
    });
    tally.expect("any bytes", &NO_BOOK);
}
