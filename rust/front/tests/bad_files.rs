//! Files that are not tables, or not allowed ones: each is turned down with the file, the line, the
//! column and what is wrong, to people and to programs alike.

mod common;

use common::json::{self, Json};
use common::{file, root, run, HEADER};
use tables::Prng;

const GOOD: &str = "Rudder,priority,ext 8,1000,1000,0\n";

/// A bad file: its bytes, where the fault is, the number of the refusal, and parts of the words.
struct Bad<'a> {
    bytes: &'a [u8],
    line: Option<u32>,
    column: Option<&'a str>,
    number: Option<u32>,
    parts: &'a [&'a str],
}

/// Both commands turn the file down so, in words and in JSON.
#[track_caller]
fn turned_down(name: &str, bad: &Bad) {
    let path = file(name, bad.bytes);
    for command in ["judge", "find"] {
        let words = run(&[command, &path]);
        assert_eq!((words.out.as_str(), words.status), ("", Some(2)), "{name}");
        assert_eq!(words.err.lines().count(), 1, "{words:?}");
        assert!(words.err.len() < 600, "{words:?}");
        let place = match (bad.line, bad.column) {
            (Some(line), Some(column)) => format!("{path}, line {line}, column {column}: "),
            (Some(line), None) => format!("{path}, line {line}: "),
            _ => format!("{path}: "),
        };
        assert!(words.err.starts_with(&place), "{place} in {words:?}");
        for part in bad.parts {
            assert!(words.err.contains(part), "{part} in {words:?}");
        }
        let json = run(&[command, &path, "--json"]);
        assert_eq!((json.err.as_str(), json.status), ("", Some(2)), "{name}");
        same_in_json(&json::read(&json.out), &path, bad, &words.err);
    }
}

#[track_caller]
fn same_in_json(object: &Json, path: &str, bad: &Bad, words: &str) {
    let verdict = if bad.number.is_some() { "refused" } else { "unreadable" };
    assert_eq!(object.get("verdict").text(), verdict);
    assert_eq!(object.get("file").text(), path);
    assert_eq!(object.find("number").and_then(Json::whole), bad.number);
    assert_eq!(object.find("line").and_then(Json::whole), bad.line);
    assert_eq!(object.find("column").map(Json::text), bad.column);
    assert!(words.ends_with(&format!("{}\n", object.get("message").text())), "{words}");
    let order = ["verdict", "number", "message", "file", "line", "column"];
    let keys: Vec<&str> = order.into_iter().filter(|key| object.find(key).is_some()).collect();
    assert_eq!(object.keys(), keys);
}

/// The front turns this text down.
#[track_caller]
fn unreadable(name: &str, bytes: &[u8], line: u32, column: Option<&str>, parts: &[&str]) {
    turned_down(name, &Bad { bytes, line: Some(line), column, number: None, parts });
}

/// The front turns down this row, which stands on line 3 after a good one.
#[track_caller]
fn unreadable_row(name: &str, row: &str, column: &str, parts: &[&str]) {
    let text = format!("{HEADER}{GOOD}{row}\n");
    unreadable(name, text.as_bytes(), 3, Some(column), parts);
}

/// The library refuses this row, which stands on line 3 after a good one.
#[track_caller]
fn refused_row(name: &str, row: &str, column: &str, parts: &[&str]) {
    let text = format!("{HEADER}{GOOD}{row}\n");
    let (line, column) = (Some(3), Some(column));
    turned_down(name, &Bad { bytes: text.as_bytes(), line, column, number: Some(3), parts });
}

#[test]
fn no_file() {
    for path in ["no/such/file.csv", "examples"] {
        let said = run(&["judge", path]);
        assert_eq!((said.out.as_str(), said.status), ("", Some(2)));
        assert!(said.err.starts_with(&format!("{path}: the file cannot be read: ")), "{said:?}");
    }
}

#[test]
fn nothing_in_it() {
    let empty = ["the file is empty, neither a table nor a book: expected `", HEADER.trim()];
    unreadable(
        "empty.csv",
        b"",
        1,
        None,
        &[&empty[..], &["did the pack that made it fail?"]].concat(),
    );
    unreadable("end.csv", b"\n", 1, None, &["no header line", HEADER.trim()]);
    unreadable("comments.csv", b"# a\n\n# b\n", 3, None, &["no header line"]);
    unreadable("header.csv", HEADER.as_bytes(), 1, None, &["no message follows"]);
    unreadable("no_header.csv", GOOD.as_bytes(), 1, Some("name"), &[HEADER.trim(), "`Rudder`"]);
}

#[test]
fn headers() {
    let header = |header: &str| format!("# note\n{header}\n{GOOD}");
    let other = header("name,queue,size,period,deadline,jitter");
    unreadable("other.csv", other.as_bytes(), 2, Some("length"), &["`size`", HEADER.trim()]);
    let fewer = header("name,queue,length,period,deadline");
    unreadable("fewer.csv", fewer.as_bytes(), 2, Some("jitter"), &["5 columns, expected 6"]);
    let more = header("name,queue,length,period,deadline,jitter,note");
    let remove = ["7 columns, expected 6", ": remove the column `note`"];
    unreadable("more.csv", more.as_bytes(), 2, None, &remove);
    let empty = header("name,queue,length,period,deadline,jitter,,");
    let remove = ["8 columns, expected 6", ": remove the empty columns at the end"];
    unreadable("more.csv", empty.as_bytes(), 2, None, &remove);
    // However many there are, and however long their names, the line can be read.
    let many = header(&format!("{}{}", HEADER.trim(), format!(",{}", "x".repeat(99)).repeat(99)));
    unreadable("more.csv", many.as_bytes(), 2, None, &["105 columns", "xxx...`, ..."]);
    let semicolons = header("name;queue;length;period;deadline;jitter");
    unreadable("semicolons.csv", semicolons.as_bytes(), 2, Some("queue"), &["not semicolons"]);
    let quoted = header("\"name\",queue,length,period,deadline,jitter");
    unreadable("quoted.csv", quoted.as_bytes(), 2, Some("name"), &["quotes are not allowed"]);
}

#[test]
fn not_plain_text() {
    let marked = [b"\xEF\xBB\xBF", HEADER.as_bytes(), GOOD.as_bytes()].concat();
    unreadable("mark.csv", &marked, 1, None, &["byte-order mark", "save it as UTF-8 without"]);
    let dos = format!("{HEADER}{GOOD}").replace('\n', "\r\n");
    unreadable("dos.csv", dos.as_bytes(), 1, None, &["CR LF", "LF line ends"]);
    let old = dos.replace('\n', "");
    unreadable("old.csv", old.as_bytes(), 1, None, &["CR alone", "LF line ends"]);
    let old = format!("# bitrate 250000\r{old}");
    unreadable("old.csv", old.as_bytes(), 1, None, &["CR alone", "LF line ends"]);
    let latin = [HEADER.as_bytes(), b"K\xFChlraum,priority,ext 8,9,9,0\n"].concat();
    unreadable("latin.csv", &latin, 2, Some("name"), &["not UTF-8"]);
    let late = [HEADER.as_bytes(), GOOD.as_bytes(), b"A,priority,ext 8,9,9\xC3,0\n"].concat();
    unreadable("cut.csv", &late, 3, Some("deadline"), &["not UTF-8"]);
    unreadable("noted.csv", b"# \x1B[2J\n", 1, None, &["control character U+001B"]);
}

// In both byte orders, with a mark and without; also to pack.
#[test]
fn utf_16() {
    let said = ["the file looks like UTF-16: save it as UTF-8"];
    for text in [HEADER, "# bitrate 250000\n", "#網\n", "\n# a\n", "\u{feff}name,queue\n"] {
        let text = format!("{text}{HEADER}{GOOD}");
        for wide in [u16::to_le_bytes, u16::to_be_bytes] {
            let bytes: Vec<u8> = text.encode_utf16().flat_map(wide).collect();
            unreadable("wide.csv", &bytes, 1, None, &said);
            let path = file("wide_pack.csv", &bytes);
            let packed = run(&["pack", &path]);
            assert_eq!((&packed.err, packed.out.as_str()), (&run(&["find", &path]).err, ""));
        }
    }
}

// What is no text from the start has no columns, and may have been meant as a book.
#[test]
fn neither_text_nor_book() {
    let book = "if it is meant to be a book, it is damaged: ask for it again";
    let no_text = format!("not UTF-8 text: save a table as UTF-8; {book}");
    let mut damaged = std::fs::read(root().join("examples/table_a.book")).expect("an example");
    for first in [0x01, b'A', 0x80, 0xFF] {
        damaged[0] = first;
        unreadable("first.book", &damaged, 1, None, &[&no_text]);
    }
    let gzipped = b"\x1F\x8B\x08\0\0\0\0\0\0\x03\x63\x60\x61\x60\x60\x10\x02\0";
    unreadable("book.gz", gzipped, 1, None, &[&no_text]);
    unreadable("latin.csv", b"# K\xFChlraum\n", 1, None, &[&no_text]);
    // Where each byte alone is text, it is the NULs that show it.
    let mut small = common::books::book(&[0, 0, 100, 100, 100, 0]);
    small[0] = 1;
    unreadable("small.book", &small, 1, None, &["U+0001 is not allowed", book]);
}

#[test]
fn characters_that_cannot_be_seen() {
    let cases = [
        ("\0", "a NUL character"),
        ("\t", "a tab"),
        ("\u{b}", "the control character U+000B"),
        ("\u{7f}", "the control character U+007F"),
        ("\u{85}", "the control character U+0085"),
        ("\u{a0}", "the special blank U+00A0"),
        ("\u{2028}", "the special blank U+2028"),
        ("\u{200b}", "the invisible character U+200B"),
        ("\u{202e}", "the invisible character U+202E"),
        ("\u{feff}", "the invisible character U+FEFF"),
        ("\r", "a CR (carriage return) is not allowed: save the file with LF line ends"),
    ];
    for (c, what) in cases {
        unreadable_row("unseen.csv", &format!("A,prio{c}rity,std 8,9,9,0"), "queue", &[what]);
        unreadable_row("unseen.csv", &format!("{c}A,priority,std 8,9,9,0"), "name", &[what]);
    }
}

#[test]
fn cells() {
    unreadable_row("row.csv", "A,priority,std 8,9,9", "jitter", &["5 columns, expected 6"]);
    unreadable_row("row.csv", "A", "queue", &["1 column, expected 6"]);
    unreadable_row("row.csv", ",priority,std 8,9,9,0", "name", &["expected a name"]);
    let twice = ["`Rudder` is already the name of the message on line 2"];
    unreadable_row("row.csv", "Rudder ,priority,std 8,9,9,0", "name", &twice);
    unreadable_row("row.csv", "\"A,B\",priority,std 8,9,9,0", "name", &["quotes"]);
    let fifo_0 = ["`fifo 0`", "FIFO numbers are 1 to 64"];
    unreadable_row("row.csv", "A,fifo 0,std 8,9,9,0", "queue", &fifo_0);
    unreadable_row("row.csv", "A,fifo,std 8,9,9,0", "queue", &["`fifo` is no queue", "1 to 64"]);
    unreadable_row("row.csv", "A,0,std 8,9,9,0", "queue", &["`0` is no queue", "`priority`"]);
    unreadable_row("row.csv", "A,fifo -1,std 8,9,9,0", "queue", &["`fifo -1` has a sign"]);
    unreadable_row("row.csv", "A,,std 8,9,9,0", "queue", &["the cell is empty"]);
    unreadable_row("row.csv", "A,priority,8,9,9,0", "length", &["`8` is no length", "`std N`"]);
    unreadable_row("row.csv", "A,priority,std eight,9,9,0", "length", &["no whole number"]);
    unreadable_row("row.csv", "A,priority,bits 4294967296,9,9,0", "length", &["32 bits"]);
    unreadable_row("row.csv", "A,priority,std 8,9x,9,0", "period", &["`9x` is no whole number"]);
    unreadable_row("row.csv", "A,priority,std 8,9,+9,0", "deadline", &["`+9` has a sign"]);
    unreadable_row("row.csv", "A,priority,std 8,9,9,-1", "jitter", &["`-1` has a sign"]);
    unreadable_row("row.csv", "A,priority,std 8,9,9,", "jitter", &["the cell is empty"]);
    unreadable_row("row.csv", "A,priority,std 8,9,4294967296,0", "deadline", &["32 bits"]);
    unreadable_row("row.csv", "A,priority,std 8,2.5,2,0", "period", &["`2.5`", "# bitrate"]);
    let many = format!("{HEADER}{GOOD}A,priority,std 8,2,5,2,0\n");
    unreadable("many.csv", many.as_bytes(), 3, None, &["7 columns, expected 6", "a point"]);
    let many = format!("{HEADER}{GOOD}A,priority,std 8,9,9,0,,,\n");
    let remove = ["9 columns, expected 6", ": remove the empty columns at the end"];
    unreadable("many.csv", many.as_bytes(), 3, None, &remove);
    let delete = ["the cell is empty: expected a name; ", "this line are empty: it can be deleted"];
    unreadable_row("row.csv", ",,,,,", "name", &delete);
    // What is quoted of a cell is no longer than a person would read.
    unreadable_row("row.csv", &format!("A,{},,,,", "x".repeat(100_000)), "queue", &["xxx...`"]);
}

#[test]
fn bit_rates() {
    for line in
        ["# bitrate 0", "# bitrate 4294967296", "# bitrate 250k", "# bitrate", "#bitrate: 5"]
    {
        let text = format!("{line}\n{HEADER}{GOOD}");
        unreadable("rate.csv", text.as_bytes(), 1, None, &["# bitrate N", "1 to 4294967295"]);
    }
    for line in ["# baud rate 250000", "# baudrate 250000", "#Baud-Rate: 250k", "# BAUD"] {
        let text = format!("{line}\n{HEADER}{GOOD}");
        let parts = ["not told by `baud`", "# bitrate N", "1 to 4294967295", "another word"];
        unreadable("rate.csv", text.as_bytes(), 1, None, &parts);
    }
    let commas = format!("# bitrate 250000,,,,,\n{HEADER}{GOOD}");
    unreadable("rate.csv", commas.as_bytes(), 1, None, &["# bitrate N", "remove every comma"]);
    let second = format!("# the deck\n# bitrate 250000\n{HEADER}{GOOD}");
    unreadable("rate.csv", second.as_bytes(), 2, None, &["on the first line"]);
    let row = |times: &str| format!("# bitrate 250000\n{HEADER}A,priority,std 8,{times}\n");
    let cases = [
        ("10.0000000001,10,0", "period", "more than 9 decimals"),
        ("10,10ms,0", "deadline", "`10ms` is no number"),
        ("10,.5,0", "deadline", "no digits"),
        ("10,5.,0", "deadline", "no digits after the point"),
        ("10,5,-0.5", "jitter", "`-0.5` has a sign"),
        ("4294967296,10,0", "period", "does not fit 32 bits"),
        ("17179869.184,10,0", "period", "at 250000 bits per second it does not fit 32 bits"),
        ("10,10,17179869.180000001", "jitter", "does not fit 32 bits"),
    ];
    for (times, column, part) in cases {
        unreadable("ms.csv", row(times).as_bytes(), 3, Some(column), &[part]);
    }
}

#[test]
fn refusal_3() {
    let fifo_65 = ["refusal 3", "`fifo 65` is not allowed for `A` (row 1)", "1 to 64"];
    refused_row("row3.csv", "A,fifo 65,std 8,9,9,0", "queue", &fifo_65);
    refused_row("row3.csv", "A,priority,std 9,9,9,0", "length", &["`std 9`", "0 to 8 bytes"]);
    refused_row("row3.csv", "A,priority,ext 9,9,9,0", "length", &["`ext 9`", "0 to 8 bytes"]);
    refused_row("row3.csv", "A,priority,bits 0,9,9,0", "length", &["`bits 0`", "1 to 4096"]);
    refused_row("row3.csv", "A,priority,bits 4097,9,9,0", "length", &["`bits 4097`"]);
    refused_row("row3.csv", "A,priority,std 8,0,0,0", "period", &["`0`", "1 to 1000000 bit times"]);
    refused_row("row3.csv", "A,priority,std 8,1000001,9,0", "period", &["`1000001`"]);
    let past = ["`10`", "a deadline is 1 bit time to the period, here 9 bit times"];
    refused_row("row3.csv", "A,priority,std 8,9,10,0", "deadline", &past);
    refused_row("row3.csv", "A,priority,std 8,9,0,0", "deadline", &["`0`"]);
    let past = ["`9`", "a jitter is 0 to the deadline, here 8 bit times"];
    refused_row("row3.csv", "A,priority,std 8,9,8,9", "jitter", &past);
}

// With a bit rate, also what the value came to in bit times: 0.0039999 ms is less than one.
#[test]
fn refusal_3_in_milliseconds() {
    let refused = |times: &str, column: &str, parts: &[&str]| {
        let text = format!("# bitrate 250000\n\n{HEADER}A,priority,std 8,{times}\n");
        let (line, column, number) = (Some(4), Some(column), Some(3));
        turned_down("ms3.csv", &Bad { bytes: text.as_bytes(), line, column, number, parts });
    };
    let none = ["`0.0039999`", "it comes to 0 whole bit times at 250000 bits per second"];
    refused("0.0039999,0.0039999,0", "period", &none);
    refused(
        "0.0039999,0.0039999,0",
        "period",
        &["1 to 1000000 bit times, here 0.004 to 4000.000 ms"],
    );
    refused("4000.004,1,0", "period", &["`4000.004`", "it comes to 1000001 whole bit times"]);
    refused("10,10.004,0", "deadline", &["comes to 2501 whole", "here 2500 bit times (`10`)"]);
    // Rounded up, the jitter is a bit time past the deadline that was rounded down.
    refused("10,0.0059,0.0059", "jitter", &["comes to 2 whole", "here 1 bit time (`0.0059`)"]);
}

// Without an ORDER, it is a line of the file that comes back to a FIFO. To find, that is no matter.
#[test]
fn refusal_7_in_the_order_of_the_file() {
    let rows =
        "A,fifo 1,std 8,1000,1000,0\nB,priority,std 8,1000,1000,0\nC,fifo 1,std 8,1000,999,0\n";
    let path = file("split.csv", format!("{HEADER}\n{rows}").as_bytes());
    let said = run(&["judge", &path]);
    assert_eq!((said.out.as_str(), said.status), ("", Some(2)));
    let start = format!("{path}, line 5, column queue: refusal 7: in the order of the file, `C` ");
    assert!(said.err.starts_with(&start), "{said:?}");
    assert!(
        said.err.contains("comes back to fifo 1, which was left after `A` (line 3)"),
        "{said:?}"
    );
    assert_eq!(run(&["find", &path]).status, Some(0));
}

#[test]
fn refusal_2() {
    let rows = |n: usize| (0..n).map(|i| format!("M{i},priority,std 0,1000000,1000000,0\n"));
    let text = format!("{HEADER}{}", rows(65).collect::<String>());
    let parts = &["refusal 2", "65 messages", "at most 64"];
    let (line, number) = (Some(66), Some(2));
    turned_down("65.csv", &Bad { bytes: text.as_bytes(), line, column: None, number, parts });
    let text = format!("{HEADER}{}", rows(64).collect::<String>());
    assert_eq!(run(&["find", &file("64.csv", text.as_bytes())]).status, Some(0));
    // As many as fit in a file are no trouble either.
    let text = format!("{HEADER}{}", rows(25_000).collect::<String>());
    let parts = &["25000 messages"];
    turned_down("25000.csv", &Bad { bytes: text.as_bytes(), line, column: None, number, parts });
}

fn noise(bytes: usize) -> Vec<u8> {
    let mut prng = Prng::new(7);
    let words = (0..bytes.div_ceil(8)).map(|_| prng.word().to_le_bytes());
    let mut noise: Vec<u8> = words.flatten().collect();
    noise.truncate(bytes);
    noise
}

#[test]
fn too_large() {
    let parts =
        &["larger than 1 MiB", "and the largest book has 1794 bytes: is it the right file?"];
    let bytes = &noise(10_000_000);
    let bad = Bad { bytes, line: None, column: None, number: None, parts };
    turned_down("noise.csv", &bad);
    let fill = |bytes: usize| format!("{HEADER}{GOOD}#{}\n", " ".repeat(bytes)).into_bytes();
    let most = (1 << 20) - fill(0).len();
    let bytes = &fill(most + 1);
    turned_down("above.csv", &Bad { bytes, ..bad });
    assert_eq!(run(&["find", &file("just.csv", &fill(most))]).status, Some(0));
}

// Noise that is small enough to be read is no table; of a file without an end, no more is read.
#[test]
fn noise_of_all_sizes() {
    for bytes in [1, 2, 100, 10_000, 1 << 20] {
        let said = run(&["judge", &file("small_noise.csv", &noise(bytes))]);
        assert_eq!(said.status, Some(2), "{said:?}");
        assert!(said.err.contains("line 1") && said.err.len() < 600, "{said:?}");
    }
    #[cfg(target_os = "linux")]
    assert!(run(&["judge", "/dev/zero"]).err.contains("larger than 1 MiB"));
}
