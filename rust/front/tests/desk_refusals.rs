//! What the desk refuses, by number and in words, and no byte of the ledger altered by it.

mod common;

use common::desk::{claim, done, no_room, refused, Desk, Ledger, CELLS, SMALL, SMALL_WORDS, WORDS};

#[test]
fn refusal_2() {
    let names: Vec<String> = (0..63).map(|row| format!("M{row}")).collect();
    let words = SMALL_WORDS.repeat(63);
    let desk = Desk::with("too_many", &Ledger { edition: 70, rate: None, names, words });
    done(&desk, &claim("last", SMALL, "70"), 71, "granted: `last` is held as row 63");
    let parts = ["the ledger holds 64 messages, and no more are allowed: withdraw one first"];
    refused(&desk, &claim("more", SMALL, "71"), Some(2), 71, &parts);
    // The edition comes first.
    refused(&desk, &claim("more", SMALL, "70"), Some(10), 71, &["edition 70 was sent"]);
}

#[test]
fn refusal_3() {
    let desk = Desk::with("bad_row", &Ledger::of(5, &["A"], SMALL_WORDS));
    let cases: [([&str; 5], &str, &str); 8] = [
        (["fifo 65", "std 8", "9", "9", "0"], "queue", "`fifo 65` is not allowed: FIFO numbers"),
        (["priority", "std 9", "9", "9", "0"], "length", "`std 9` is not allowed: a frame has 0 "),
        (["priority", "bits 0", "9", "9", "0"], "length", "a length in bit times is 1 to 4096"),
        (["priority", "std 8", "0", "9", "0"], "period", "`0` is not allowed: a period is 1 to"),
        (["priority", "std 8", "1000001", "9", "0"], "period", "`1000001` is not allowed"),
        (["priority", "std 8", "9", "10", "0"], "deadline", "to the period, here 9 bit times"),
        (["priority", "std 8", "9", "0", "0"], "deadline", "`0` is not allowed"),
        (["priority", "std 8", "9", "8", "9"], "jitter", "a jitter is 0 to the deadline, here 8 "),
    ];
    for (cells, column, part) in cases {
        let place = format!(", edition 5, column {column}: refusal 3: ");
        // Before the edition.
        for edition in ["5", "4"] {
            let object = refused(&desk, &claim("B", cells, edition), Some(3), 5, &[&place, part]);
            assert_eq!(object.get("column").text(), column);
            let keys = ["verdict", "number", "message", "file", "edition", "column"];
            assert_eq!(object.keys(), keys);
        }
    }
}

#[test]
fn refusal_8() {
    let desk = Desk::with("no_room", &Ledger::of(2, &["A", "B"], WORDS));
    no_room(&desk, &claim("C", CELLS, "2"), 2, 3, 3);
    no_room(&desk, &claim("C", ["priority", "std 8", "135", "135", "1"], "2"), 2, 3, 3);
    let desk = Desk::with("no_room_at_all", &Ledger::default());
    no_room(&desk, &claim("A", ["priority", "bits 100", "199", "199", "0"], "0"), 0, 1, 1);
}

#[test]
fn refusal_9() {
    let last = u32::MAX.to_string();
    let before_last = (u32::MAX - 1).to_string();
    let desk = Desk::with("closed", &Ledger::of(u32::MAX - 1, &["A"], SMALL_WORDS));
    done(&desk, &claim("B", SMALL, &before_last), u32::MAX, "granted: `B` is held as row 1");
    let parts = ["the ledger is closed: 4294967295 is the last edition there is; make a new"];
    for edition in [&last, &before_last, "0"] {
        refused(&desk, &claim("C", SMALL, edition), Some(9), u32::MAX, &parts);
        let withdraw = ["withdraw", "A", "--edition", edition];
        refused(&desk, &withdraw, Some(9), u32::MAX, &parts);
    }
    assert_eq!(desk.edition(), u32::MAX);
}

#[test]
fn refusal_10() {
    let desk = Desk::with("edition", &Ledger::of(5, &["A"], SMALL_WORDS));
    let look = format!("look at what it holds (telhavina desk {} show)", desk.name());
    for sent in ["4", "6", "0", "4294967295"] {
        let words = format!("edition {sent} was sent, and the ledger has edition 5: ");
        let object = refused(&desk, &claim("B", SMALL, sent), Some(10), 5, &[&words, &look]);
        assert_eq!(object.keys(), ["verdict", "number", "message", "file", "edition"]);
        // Also of a message that is no longer there.
        for name in ["A", "0", "B", "7"] {
            let withdraw = ["withdraw", name, "--edition", sent];
            refused(&desk, &withdraw, Some(10), 5, &[&words, &look]);
        }
    }
}

#[test]
fn refusal_11() {
    let desk = Desk::with("no_such_row", &Ledger::of(5, &["Rudder", "Winch"], SMALL_WORDS));
    let withdraw = |name| ["withdraw", name, "--edition", "5"];
    let neither = "is neither the name nor the row number of a message that is held; ";
    for name in ["Sonar", "2", "4294967295", "4294967296", ""] {
        let parts = [&format!("`{name}` {neither}"), "there are `Rudder`, `Winch`"];
        refused(&desk, &withdraw(name), Some(11), 5, &parts);
    }
    refused(&desk, &withdraw("rudder"), Some(11), 5, &["did you mean `Rudder`?"]);
    let desk = Desk::with("no_row", &Ledger { edition: 5, ..Ledger::default() });
    refused(&desk, &withdraw("0"), Some(11), 5, &["`0` is neither", "there is none"]);
}

#[test]
fn refusal_23() {
    let bad = [0, 1, 9, 1000, 1000, 0];
    let desk = Desk::with("bad_ledger", &Ledger::of(5, &["A", "B"], bad));
    let parts = [
        "the ledger holds what is not allowed, and nothing is granted or withdrawn in it: row 0, ",
        "row 0, length: `std 9` is not allowed: a frame has 0 to 8 bytes",
    ];
    // Before all others.
    for edition in ["5", "4"] {
        refused(&desk, &claim("C", SMALL, edition), Some(23), 5, &parts);
        refused(&desk, &["withdraw", "X", "--edition", edition], Some(23), 5, &parts);
    }
    refused(&desk, &["show"], Some(3), 5, &parts[1..]);
    let form = Desk::with("bad_form", &Ledger::of(5, &["A"], [0, 7, 1, 9, 9, 0]));
    refused(&form, &claim("C", SMALL, "5"), Some(23), 5, &["`form 7 size 1` is not allowed"]);
}

// What the front does not hand on.
#[test]
fn claims_that_cannot_be_read() {
    let desk = Desk::with("unreadable", &Ledger::of(5, &["Rudder"], SMALL_WORDS));
    let held = "`Rudder` is already the name of row 0, which is held";
    refused(&desk, &claim("Rudder", SMALL, "5"), None, 5, &["column name: ", held]);
    refused(&desk, &claim(" Rudder ", SMALL, "4"), None, 5, &["column name: ", held]);
    let cases: [(&str, [&str; 5], &str, &str); 12] = [
        ("", SMALL, "name", "the cell is empty: expected a name"),
        ("#A", SMALL, "name", "a name cannot start with #"),
        ("A,B", SMALL, "name", "a comma is not allowed"),
        ("\"A\"", SMALL, "name", "quotes are not allowed"),
        ("A\nB", SMALL, "name", "the control character U+000A is not allowed"),
        ("A\u{200b}", SMALL, "name", "the invisible character U+200B is not allowed"),
        ("A", ["fifo 0", "std 8", "9", "9", "0"], "queue", "`fifo 0` is not allowed"),
        ("A", ["priority", "8", "9", "9", "0"], "length", "`8` is no length: expected `std N`"),
        ("A", ["priority", "std 8", "2.5", "9", "0"], "period", "for a ledger, `new --bitrate N`"),
        ("A", ["priority", "std 8", "9", "9,0", "0"], "deadline", "decimals follow a point"),
        ("A", ["priority", "std 8", "9", "9", ""], "jitter", "the cell is empty"),
        ("A", ["priority", "std 8", "9", "9", "0\n"], "jitter", "U+000A is not allowed"),
    ];
    for (name, cells, column, part) in cases {
        let place = format!(", edition 5, column {column}: ");
        let object = refused(&desk, &claim(name, cells, "5"), None, 5, &[&place, part]);
        assert_eq!(object.keys(), ["verdict", "message", "file", "edition", "column"]);
        assert_eq!(object.get("column").text(), column);
    }
}

// As in an ORDER: a name that is the number of another row has to be written otherwise.
#[test]
fn a_name_that_is_the_number_of_another() {
    let desk = Desk::with("ambiguous", &Ledger::of(5, &["1", "0", "7"], SMALL_WORDS));
    let words = "`0` is ambiguous: it is the name of row 1 and the number of row 0; write `01` for";
    refused(&desk, &["withdraw", "0", "--edition", "5"], None, 5, &[words]);
    done(&desk, &["withdraw", "7", "--edition", "5"], 6, "withdrawn: `7`, which was row 2, ");
    done(&desk, &["withdraw", "01", "--edition", "6"], 7, "withdrawn: `0`, which was row 1, ");
}

// 64 names of any length would be more than is read again.
#[test]
fn names_that_are_too_long() {
    let names: Vec<String> = (0..10).map(|row| format!("{row}{}", "ø".repeat(50_000))).collect();
    let words = SMALL_WORDS.repeat(10);
    let desk = Desk::with("too_long", &Ledger { edition: 10, rate: None, names, words });
    let before = desk.bytes();
    let said = desk.run(&claim(&"a".repeat(100_000), SMALL, "10"));
    assert!(said.err.contains("larger than 1 MiB (1048576 bytes), and could not be read again"));
    assert_eq!((said.out.as_str(), said.status), ("", Some(2)));
    assert_eq!(desk.bytes(), before);
    done(&desk, &claim("a", SMALL, "10"), 11, "granted: ");
}
