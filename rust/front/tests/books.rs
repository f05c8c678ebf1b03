//! Books and the real program: made of tables and turned into tables again, judged as tables are,
//! and turned down with what is wrong, to people and to programs alike.

mod common;

use std::fs;

use common::books::book;
use common::json::{self, Json};
use common::{command, file, root, run, run_here, run_on, HEADER};
use front::table::MOST_ROWS;
use front::Streams;

const TABLE_A: &str = "examples/table_a.csv";
const BOOK_A: &str = "examples/table_a.book";
const UNPACKED_A: &str = "name,queue,length,period,deadline,jitter\n\
                          row0,priority,bits 125,1000,750,0\nrow1,priority,bits 125,1000,350,0\n\
                          row2,priority,bits 125,1000,750,0\nrow3,priority,bits 75,1000,1000,0\n";
const ROW: [u32; 6] = [0, 0, 125, 1000, 750, 0];

/// What pack writes for this file.
#[track_caller]
fn packed(path: &str) -> Vec<u8> {
    let output = command().args(["pack", path]).output().expect("the program runs");
    assert_eq!((output.stderr.as_slice(), output.status.code()), (&b""[..], Some(0)), "{path}");
    output.stdout
}

/// What unpack writes for this book.
#[track_caller]
fn unpacked(path: &str) -> String {
    let said = run(&["unpack", path]);
    assert_eq!((said.err.as_str(), said.status), ("", Some(0)), "{path}");
    said.out
}

/// Turned down: one line with the file and these parts, and nothing else.
#[track_caller]
fn turned_down(said: &common::Said, name: &str, parts: &[&str]) {
    assert_eq!((said.out.as_str(), said.status), ("", Some(2)), "{said:?}");
    assert!(said.err.starts_with(&format!("{name}: ")), "{said:?}");
    assert!(said.err.lines().count() == 1 && said.err.len() < 600, "{said:?}");
    for part in parts {
        assert!(said.err.contains(part), "{part} in {said:?}");
    }
}

/// The library refuses this book, by this number: to judge and find, in words and in JSON.
#[track_caller]
fn refused(name: &str, bytes: &[u8], number: u32, parts: &[&str]) -> String {
    let path = file(name, bytes);
    for command in ["judge", "find"] {
        let words = run(&[command, &path]);
        turned_down(&words, &path, parts);
        assert!(words.err.starts_with(&format!("{path}: refusal {number}: ")), "{words:?}");
        let said = run(&[command, &path, "--json"]);
        assert_eq!((said.err.as_str(), said.status), ("", Some(2)), "{name}");
        let object = json::read(&said.out);
        // There is no line and no column to name.
        assert_eq!(object.keys(), ["verdict", "number", "message", "file"]);
        assert_eq!(object.get("verdict").text(), "refused");
        assert_eq!(object.get("number").whole(), Some(number));
        assert_eq!(object.get("file").text(), path);
        assert!(words.err.ends_with(&format!("{}\n", object.get("message").text())), "{words:?}");
    }
    path
}

/// The same, and to unpack as well: these bytes hold no table.
#[track_caller]
fn no_book(name: &str, bytes: &[u8], number: u32, parts: &[&str]) {
    let path = refused(name, bytes, number, parts);
    let expected = run(&["find", &path]).err;
    assert_eq!(run(&["unpack", &path]).err, expected);
    let from_input = run_on(&["unpack"], &path);
    turned_down(&from_input, "standard input", parts);
    assert_eq!(from_input.err, expected.replace(&path, "standard input"));
}

#[test]
fn unpacked_from_a_file_or_from_the_input() {
    assert_eq!(unpacked(BOOK_A), UNPACKED_A);
    for args in [&["unpack"][..], &["unpack", "-"], &["unpack", "--"], &["unpack", "-", "--"]] {
        let said = run_on(args, BOOK_A);
        assert_eq!((said.out.as_str(), said.err.as_str(), said.status), (UNPACKED_A, "", Some(0)));
    }
    assert_eq!(packed(&file("again.csv", UNPACKED_A.as_bytes())), packed(TABLE_A));
}

// Request L1 of document 02, for all the examples: the words are there, and names and rate are not.
#[test]
fn the_books_of_the_examples() {
    for example in ["table_a", "fifo_mix", "late", "no_order", "deck"] {
        let csv = format!("examples/{example}.csv");
        let bytes = fs::read(root().join(&csv)).expect("an example");
        let table = front::table::read(&bytes).expect("a table");
        let made = packed(&csv);
        assert_eq!(made, book(&table.words()), "{example}");
        let path = file(&format!("{example}.book"), &made);
        let again = file(&format!("{example}.again.csv"), unpacked(&path).as_bytes());
        assert_eq!(packed(&again), made, "{example}");
        same_answers(&csv, &path);
        same_answers(&csv, &again);
    }
}

/// Judging and finding say the same of these two files, but for names, lines and milliseconds.
#[track_caller]
fn same_answers(one: &str, other: &str) {
    for command in ["judge", "find"] {
        let said = [one, other].map(|path| run(&[command, path, "--json"]));
        assert_eq!(said[0].status, said[1].status, "{command} {one}");
        let [one, other] = said.map(|said| json::read(&said.out));
        for key in ["verdict", "number", "late_count", "unplaced", "tried"] {
            assert_eq!(one.find(key), other.find(key), "{key}");
        }
        assert_eq!(figures(&one), figures(&other));
    }
}

/// What is said of each message, by its row.
fn figures(answer: &Json) -> Vec<Vec<&Json>> {
    let keys = ["row", "queue", "late", "figure", "allowed", "slack"];
    let messages = answer.find("messages").map(Json::items).unwrap_or_default();
    messages.iter().map(|message| keys.iter().map(|key| message.get(key)).collect()).collect()
}

#[test]
fn orders_of_a_book() {
    let expected = run(&["judge", BOOK_A, "3,1,0,2"]);
    assert_eq!(expected.status, Some(0));
    for order in ["row3,row1,row0,row2", "row3, 1,row0 ,02"] {
        assert_eq!(run(&["judge", BOOK_A, order]).out, expected.out);
    }
    let said = run(&["judge", BOOK_A, "row3,row1,row0,row4"]);
    turned_down(&said, BOOK_A, &["`row4` (place 3)", "there are `row0`, `row1`, `row2`, `row3`"]);
    let said = run(&["judge", BOOK_A, "3,1,0,4"]);
    turned_down(&said, BOOK_A, &["refusal 6", "`4` (place 3) is no row: rows are 0 to 3"]);
    let said = run(&["judge", BOOK_A, "3,1,0"]);
    turned_down(&said, BOOK_A, &["refusal 5", "missing: `row2`"]);
}

#[test]
fn damaged_books() {
    let three = book(&[ROW, ROW, ROW].concat());
    no_book("b.book", b"\0", 20, &["it has 1 byte", "takes two", "ask for it again"]);
    no_book("b.book", b"\0\0", 20, &["the book says that it has no row"]);
    no_book("b.book", &[b"\0\0", &three[2..]].concat(), 20, &["no row"]);
    let most = format!("has {} rows, and at most {MOST_ROWS} are allowed", MOST_ROWS + 1);
    no_book("b.book", &book(&[ROW; MOST_ROWS + 1].concat()), 2, &[&most]);
    // Where the length is that of so many rows, nothing is damaged.
    let path = file("b.book", &book(&[ROW; MOST_ROWS + 1].concat()));
    assert!(run(&["find", &path]).err.ends_with("are allowed\n"));
    let no_length =
        "has 512 rows, and at most 64 are allowed; the book is damaged: ask for it again";
    no_book("b.book", b"\x02\0", 2, &[no_length]);
    no_book("b.book", &[b"\x02\0", &three[2..85]].concat(), 2, &[no_length]);
    let other_length =
        "has 512 rows, and at most 64 are allowed; and it has 86 bytes, as a book of \
                        3 rows has; the book is damaged: ask for it again";
    no_book("b.book", &[b"\x02\0", &three[2..]].concat(), 2, &[other_length]);
    no_book("b.book", &[b"\0\xFF", &book(&ROW)[2..]].concat(), 2, &["as a book of 1 row has; "]);
    // A count of 256 rows is one of a book, too.
    no_book(
        "b.book",
        &book(&[ROW; 256].concat()),
        2,
        &["has 256 rows, and at most 64 are allowed"],
    );
    let cut = ["has 3 rows, which would make 86 bytes, and it has 85: 1 byte is missing"];
    no_book("b.book", &three[..85], 21, &cut);
    no_book("b.book", &three[..2], 21, &["and it has 2: 84 bytes are missing", "ask for it again"]);
    let more = [&three[..], b"\n\n"].concat();
    no_book("b.book", &more, 21, &["and it has 88: 2 bytes are too many"]);
    for (row, start) in [(0, 14), (1, 38), (2, 62)] {
        let mut book = three.clone();
        book[2 + 4 * row] = 1;
        let said =
            format!("the book says at byte {}, and it is at byte {start}", start + (1 << 24));
        let row = format!("row {row} does not start where the book says");
        no_book("b.book", &book, 22, &[&row, &said]);
    }
}

// Refusal 3 names the row and the field. What a CSV can tell of it comes through all the same.
#[test]
fn rows_that_are_not_allowed() {
    let cases: [([u32; 6], &str); 8] = [
        ([99, 0, 1, 9, 9, 0], "row 1, queue: `fifo 99` is not allowed: FIFO numbers are 1 to 64"),
        ([0, 0, 0, 9, 9, 0], "row 1, length: `bits 0` is not allowed: a length in bit times is 1"),
        ([0, 1, 9, 9, 9, 0], "row 1, length: `std 9` is not allowed: a frame has 0 to 8 bytes"),
        ([0, 2, u32::MAX, 9, 9, 0], "row 1, length: `ext 4294967295` is not allowed"),
        ([0, 2, 8, 1_000_001, 9, 0], "row 1, period: `1000001` is not allowed: a period is 1 to"),
        ([0, 2, 8, 9, 10, 0], "row 1, deadline: `10` is not allowed: a deadline is 1 bit time to"),
        ([0, 2, 8, 9, 0, 0], "row 1, deadline: `0` is not allowed"),
        ([0, 2, 8, 9, 8, 9], "row 1, jitter: `9` is not allowed: a jitter is 0 to the deadline"),
    ];
    for (row, part) in cases {
        let bytes = book(&[ROW, row].concat());
        let path = refused("row.book", &bytes, 3, &[part]);
        let csv = unpacked(&path);
        assert_eq!(packed(&file("row_again.csv", csv.as_bytes())), bytes, "{csv}");
    }
}

#[test]
fn what_no_csv_can_tell() {
    for (form, size) in [(3, 15), (7, 8), (u32::MAX, 0)] {
        let bytes = book(&[ROW, ROW, [0, form, size, 9, 9, 0], [0, 4, 1, 9, 9, 0]].concat());
        let length = format!("row 2, length: `form {form} size {size}` ");
        let parts = [&length, "the forms are 0 (bits), 1 (std) and 2 (ext)"];
        let path = refused("form.book", &bytes, 3, &parts);
        let said = run(&["unpack", &path]);
        turned_down(&said, &path, &[&length, "cannot be written in a CSV", parts[1]]);
    }
}

#[test]
fn a_book_that_splits_a_fifo() {
    let [first, last] = [[1, 0, 125, 1000, 750, 0]; 2];
    let path = file("split.book", &book(&[first, ROW, last].concat()));
    let said = run(&["judge", &path]);
    let parts =
        ["refusal 7: in the order of the file, `row2` comes back to fifo 1", "after `row0`:"];
    turned_down(&said, &path, &parts);
    assert_eq!(run(&["find", &path]).status, Some(0));
    assert_eq!(run(&["judge", &path, "row0,row2,row1"]).status, Some(0));
}

#[test]
fn files_of_the_other_kind() {
    for path in [BOOK_A, "examples/damaged.book"] {
        let said = run(&["pack", path]);
        turned_down(&said, path, &["this looks like a book, not a table: judge and find take it"]);
        assert!(said.err.ends_with("as it is, and unpack says what is in it\n"), "{said:?}");
    }
    let wide: Vec<u8> = HEADER.encode_utf16().flat_map(u16::to_be_bytes).collect();
    let wide = file("wide.book", &wide);
    turned_down(&run(&["unpack", &wide]), &wide, &["this looks like UTF-16 text, not a book"]);
    let text = ["this is a text and not a book", "take a CSV as it is"];
    turned_down(&run(&["unpack", TABLE_A]), TABLE_A, &text);
    turned_down(&run_on(&["unpack"], TABLE_A), "standard input", &text);
    let noise = file("noise.book", b"\xFF\xD8\xFF\xE0\0\x10JFIF");
    turned_down(&run(&["unpack", &noise]), &noise, &["neither a book nor a text"]);
    let near = file("near.book", &[b"\x01\x04", &book(&ROW)[2..]].concat());
    turned_down(&run(&["unpack", &near]), &near, &["neither a book nor a text"]);
}

#[test]
fn nothing_to_read() {
    let empty = file("empty.book", b"");
    let parts = ["refusal 20", "it is empty, and a book has at least one row"];
    turned_down(&run(&["unpack", &empty]), &empty, &parts);
    turned_down(&run_on(&["unpack", "-"], &empty), "standard input", &parts);
    let said = run(&["pack", &empty]);
    assert!(
        said.err.contains("line 1: the file is empty, neither a table nor a book: "),
        "{said:?}"
    );
    assert!(said.err.ends_with("; did the pack that made it fail?\n"), "{said:?}");
    for path in ["examples", "no/such/file.book"] {
        for command in ["pack", "unpack"] {
            turned_down(&run(&[command, path]), path, &["the file cannot be read: "]);
        }
    }
}

// Of what is too large or has no end, no more is read than shows it.
#[test]
fn too_much_to_read() {
    let large = file("large.book", &[0; (1 << 20) + 1]);
    turned_down(&run(&["unpack", &large]), &large, &["larger than 1 MiB"]);
    turned_down(&run_on(&["unpack"], &large), "standard input", &["larger than 1 MiB"]);
    turned_down(&run(&["judge", &large]), &large, &["larger than 1 MiB"]);
    let just = file("just.book", &[0; 1 << 20]);
    turned_down(&run(&["unpack", &just]), &just, &["refusal 20"]);
    #[cfg(target_os = "linux")]
    for command in ["judge", "find", "pack", "unpack"] {
        let said = run_on(&[command, "-"], "/dev/zero");
        turned_down(&said, "standard input", &["larger than 1 MiB", "largest book has 1794 bytes"]);
    }
}

// The faults of a CSV are those of judging it, as far as they are faults of reading.
#[test]
fn tables_that_cannot_be_packed() {
    let bad = file("bad.csv", format!("{HEADER}A,priority,8,9,9,0\n").as_bytes());
    let said = run(&["pack", &bad]);
    assert_eq!((&said.err, said.out.as_str()), (&run(&["judge", &bad]).err, ""));
    let rows = |n: usize| (0..n).map(|i| format!("M{i},priority,std 0,1000,1000,0\n"));
    let with_rows = |n: usize| format!("{HEADER}{}", rows(n).collect::<String>());
    let many = file("too_many.csv", with_rows(MOST_ROWS + 1).as_bytes());
    let said = run(&["pack", &many]);
    assert_eq!((&said.err, said.status), (&run(&["judge", &many]).err, Some(2)));
    // The header has a line too, and lines count from 1.
    let start = format!("{many}, line {}: refusal 2: ", MOST_ROWS + 2);
    assert!(said.out.is_empty() && said.err.starts_with(&start), "{said:?}");
    let most = packed(&file("most.csv", with_rows(MOST_ROWS).as_bytes()));
    assert_eq!(most, book(&[[0, 1, 0, 1000, 1000, 0]; MOST_ROWS].concat()));
}

/// What is said to a person who has this on the screen.
fn at_a_terminal(args: &[&str]) -> front::Said {
    let mut streams =
        Streams { input: &mut std::io::empty(), input_is_terminal: true, output_is_terminal: true };
    front::run(args.iter().map(Into::into).collect(), &mut streams)
}

#[test]
fn no_book_on_a_screen() {
    let path = root().join(TABLE_A).to_string_lossy().to_string();
    let said = at_a_terminal(&["pack", &path]);
    assert_eq!((said.out.as_slice(), said.status), (&b""[..], 2));
    assert!(said.err.starts_with(&format!("{path}: a book is binary")), "{said:?}");
    assert!(said.err.contains("send it to a file (telhavina pack TABLE.csv > BOOK)"), "{said:?}");
    let said = at_a_terminal(&["unpack"]);
    assert_eq!((said.out.as_slice(), said.status), (&b""[..], 2));
    assert!(said.err.contains("cannot be typed in: name its file"), "{said:?}");
    // From a file to the screen, a CSV is what a person can read.
    let path = root().join(BOOK_A).to_string_lossy().to_string();
    assert_eq!(at_a_terminal(&["unpack", &path]), run_here(&["unpack", &path], b""));
}
