//! Files that are not ledgers, or not whole ones: each is refused with the reason, whatever is
//! asked, and no byte of it is altered.

mod common;

use common::desk::{claim, summed, Desk, Ledger, SMALL, SMALL_WORDS};
use common::json;
use common::run_here;
use common::tally::Tally;
use front::desk::file;
use tables::Prng;

fn ledger() -> Ledger {
    Ledger { rate: Some(250_000), ..Ledger::of(7, &["Rudder", "網", "Winch load"], SMALL_WORDS) }
}

/// What is asked of the desk, within the test.
fn ask(desk: &Desk, args: &[&str]) -> front::Said {
    run_here(&[&["desk", desk.name()], args].concat(), b"")
}

/// The file with these bytes is refused, whatever is asked, and is as it was then; what is said.
#[track_caller]
fn refused(desk: &Desk, bytes: &[u8]) -> String {
    desk.put(bytes);
    let said = ask(desk, &["show"]);
    assert_eq!((said.out.as_slice(), said.status), (&b""[..], 2), "{bytes:?}");
    assert!(said.err.starts_with(desk.name()) && said.err.lines().count() == 1, "{said:?}");
    for args in [claim("A", SMALL, "7"), vec!["withdraw", "0", "--edition", "7"]] {
        assert_eq!(ask(desk, &args), said, "{bytes:?}");
    }
    let as_json = ask(desk, &["show", "--json"]);
    assert_eq!((as_json.err.as_str(), as_json.status), ("", 2));
    let object = json::read(&String::from_utf8(as_json.out).expect("UTF-8"));
    assert_eq!(object.get("verdict").text(), "unreadable");
    assert_eq!(object.find("edition"), None);
    assert!(said.err.ends_with(&format!("{}\n", object.get("message").text())), "{said:?}");
    assert_eq!(desk.bytes(), bytes);
    assert_eq!(desk.files(), ["deck.ledger"]);
    said.err
}

#[test]
fn the_whole_file_is_read() {
    let desk = Desk::with("whole", &ledger());
    let said = ask(&desk, &["show"]);
    assert_eq!((said.err.as_str(), said.status), ("", 0));
    let held = file::read(&ledger().bytes()).expect("a ledger");
    assert_eq!(held.names, ledger().names);
    assert_eq!((held.ledger.edition, held.ledger.rows()), (7, &ledger().words[..]));
    assert_eq!(file::write(&held), Ok(ledger().bytes()));
}

#[test]
fn every_truncation() {
    let desk = Desk::nothing("truncated");
    for whole in [ledger(), Ledger::default()] {
        let bytes = whole.bytes();
        for end in 0..bytes.len() {
            let words = refused(&desk, &bytes[..end]);
            let is_named = words.contains("this is not a ledger") || words.contains("is damaged");
            assert!(is_named, "{end}: {words}");
        }
    }
}

// A CRC-32 tells any change of a few bytes next to each other.
#[test]
fn every_byte_changed() {
    let desk = Desk::nothing("changed");
    let bytes = ledger().bytes();
    let mut prng = Prng::new(1);
    for at in 0..bytes.len() {
        let bits = (0..8).map(|bit| bytes[at] ^ (1 << bit));
        let others = [0, b'0', b'9', b'\n', b' ', 0xFF, prng.word() as u8].into_iter();
        for byte in bits.chain(others).filter(|&byte| byte != bytes[at]) {
            let mut changed = bytes.clone();
            changed[at] = byte;
            assert!(file::read(&changed).is_err(), "{byte} at {at}");
        }
        let mut changed = bytes.clone();
        changed[at] ^= 1 << prng.below(8);
        refused(&desk, &changed);
    }
}

// More than one byte, also with a sum that is right: what is read is what would be written.
#[test]
fn much_damage() {
    let bytes = ledger().bytes();
    let mut tally = Tally::default();
    for seed in 0..20_000 {
        let mut prng = Prng::new(seed);
        let mut damaged = bytes[..bytes.len() - 4].to_vec();
        for _ in 0..prng.between(1, 4) {
            let at = prng.below(damaged.len());
            match prng.below(12) {
                0 => drop(damaged.splice(at..at + 1, [prng.word() as u8; 2])),
                1 => damaged.truncate(at.max(1)),
                2 => damaged.extend_from_slice(&bytes[at.min(bytes.len() - 1)..]),
                3 => damaged[at] = b'0' + prng.below(10) as u8,
                _ => damaged[at] = prng.word() as u8,
            }
        }
        let without_sum = [&damaged[..], &bytes[bytes.len() - 4..]].concat();
        let is_whole = without_sum == bytes;
        assert_eq!(file::read(&without_sum).is_ok(), is_whole, "seed {seed}");
        let with_sum = summed(damaged);
        tally.count(match file::read(&with_sum) {
            Ok(held) => {
                assert_eq!(file::write(&held), Ok(with_sum), "seed {seed}");
                "read"
            }
            Err(fault) => {
                assert_eq!(fault.number, None);
                "refused"
            }
        });
    }
    tally.expect("damaged ledgers with a right sum", &["read", "refused"]);
}

/// A ledger of these lines and this book, with the right sum, is refused for this reason.
#[track_caller]
fn wrong(desk: &Desk, lines: &str, book: &[u8], part: &str) {
    let words = refused(desk, &summed([lines.as_bytes(), book].concat()));
    assert!(words.contains(part), "{part} in {words}");
}

#[test]
fn lines_that_are_wrong() {
    let desk = Desk::nothing("lines");
    let first = "telhavina ledger 1\n";
    let damaged = "; the ledger is damaged: take a copy of it that is whole";
    for (lines, part) in [
        ("", "line 2: expected `edition N`"),
        ("edition 7\n", "line 3: expected `messages N`"),
        ("edition 7", "line 2: expected `edition N`"),
        ("edition\nmessages 0\n", "line 2: expected `edition N`, found `edition`"),
        ("edition 07\nmessages 0\n", "found `edition 07`"),
        ("edition +7\nmessages 0\n", "found `edition +7`"),
        ("edition -0\nmessages 0\n", "found `edition -0`"),
        ("edition  7\nmessages 0\n", "found `edition  7`"),
        ("edition 7 \nmessages 0\n", "found `edition 7 `"),
        ("Edition 7\nmessages 0\n", "found `Edition 7`"),
        ("edition 7\r\nmessages 0\r\n", "found `edition 7\\r`"),
        ("edition 4294967296\nmessages 0\n", "found `edition 4294967296`"),
        ("messages 0\nedition 7\n", "line 2: expected `edition N`, found `messages 0`"),
        ("edition 7\nbitrate 0\nmessages 0\n", "line 3: a bit rate of 0"),
        ("edition 7\nbitrate 05\nmessages 0\n", "found `bitrate 05`"),
        ("edition 7\nbitrate \nmessages 0\n", "expected `bitrate N`"),
        ("edition 7\nbitrate 5\nbitrate 5\nmessages 0\n", "line 4: expected `messages N`"),
        ("edition 7\nmessages 00\n", "found `messages 00`"),
        ("edition 7\n\nmessages 0\n", "line 3: expected `messages N`, found ``"),
        ("edition 7\nmessages 65\n", "line 3: more than 64 messages"),
        ("edition 7\nmessages 4294967295\n", "line 3: more than 64 messages"),
        ("edition 7\nmessages 0\n\n", "1 byte after its last line"),
        ("edition 7\nmessages 0\nRudder\n", "7 bytes after its last line"),
    ] {
        wrong(&desk, &format!("{first}{lines}"), b"", part);
        wrong(&desk, &format!("{first}{lines}"), b"", damaged);
    }
    for first in
        ["telhavina ledger 2", "telhavina ledger 1 ", "telhavina ledger 01", "telhavina ledger "]
    {
        let words = format!(
            "line 1: expected `telhavina ledger 1`, the one format that is known, found `{first}`"
        );
        wrong(&desk, &format!("{first}\nedition 7\nmessages 0\n"), b"", &words);
    }
    for first in ["telhavina ledge 1", "Telhavina ledger 1", "\u{feff}telhavina ledger 1", "\n"] {
        wrong(&desk, &format!("{first}\nedition 7\nmessages 0\n"), b"", "this is not a ledger: ");
    }
}

#[test]
fn names_that_are_wrong() {
    let desk = Desk::nothing("names");
    let book = common::books::book(&SMALL_WORDS.repeat(2));
    let head = "telhavina ledger 1\nedition 7\nmessages 2\n";
    for (names, part) in [
        ("A\nA\n", "line 5: `A` is the name of two messages"),
        ("A\n\n", "line 5: the cell is empty: expected a name"),
        ("#A\nB\n", "line 4: a name cannot start with #"),
        (" A\nB\n", "line 4: a name has no blanks around it"),
        ("A\nB \n", "line 5: a name has no blanks around it"),
        ("A,B\nC\n", "line 4: a comma is not allowed"),
        ("\"A\"\nB\n", "line 4: quotes are not allowed"),
        ("A\r\nB\r\n", "line 4: a CR (carriage return) is not allowed"),
        ("A\tB\nC\n", "line 4: a tab is not allowed"),
        ("A\u{200b}\nA\n", "line 4: the invisible character U+200B"),
    ] {
        wrong(&desk, &format!("{head}{names}"), &book, part);
    }
    let words = refused(&desk, &summed([head.as_bytes(), b"A\n\xFF\n", &book].concat()));
    assert!(words.contains("line 5: expected a name"), "{words}");
    wrong(&desk, head, &book[..0], "line 4: expected a name");
}

#[test]
fn rows_that_are_wrong() {
    let desk = Desk::nothing("rows");
    let two = common::books::book(&SMALL_WORDS.repeat(2));
    let head = |names: &[&str]| {
        let lines: String = names.iter().map(|name| format!("{name}\n")).collect();
        format!("telhavina ledger 1\nedition 7\nmessages {}\n{lines}", names.len())
    };
    wrong(&desk, &head(&["A"]), &two, "1 message by name, and 2 rows in the book");
    wrong(&desk, &head(&["A", "B", "C"]), &two, "3 messages by name, and 2 rows in the book");
    wrong(&desk, &head(&["A", "B"]), b"", "it is empty, and a book has at least one row");
    wrong(&desk, &head(&["A", "B"]), &[0, 0], "the book says that it has no row");
    wrong(&desk, &head(&["A", "B"]), &two[..57], "1 byte is missing");
    wrong(&desk, &head(&["A", "B"]), &[&two[..], b"\n"].concat(), "1 byte is too many");
    let mut moved = two.clone();
    moved[5] += 1;
    wrong(&desk, &head(&["A", "B"]), &moved, "row 0 does not start where the book says");
    wrong(&desk, &head(&[]), &two, "58 bytes after its last line");
    // With nothing wrong, they are read.
    let good = summed([head(&["A", "B"]).as_bytes(), &two].concat());
    assert_eq!(good, Ledger::of(7, &["A", "B"], SMALL_WORDS).bytes());
    assert!(file::read(&good).is_ok());
    // The sum is checked as well, high byte first.
    for sum in [[0; 4], [0xFF; 4], [good[61], good[60], good[59], good[58]]] {
        let bytes = [&good[..good.len() - 4], &sum].concat();
        assert!(refused(&desk, &bytes).contains("its CRC-32 is "));
    }
    assert!(refused(&desk, &[&good[..], b"\n"].concat()).contains("its CRC-32 is "));
}
