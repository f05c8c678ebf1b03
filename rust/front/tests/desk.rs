//! The desk and the real program: ledgers made, claims granted, messages withdrawn and shown.

mod common;

use std::fs;

use common::desk::{claim, done, no_room, refused, Desk, Ledger, CELLS, WORDS};
use common::json::{self, Json};
use common::{file, run, HEADER};

// The customer's story: there is room for one more message, and two captains claim it at once.
#[test]
fn the_last_room_is_granted_once() {
    let desk = Desk::nothing("last_room");
    done(&desk, &["new"], 0, "made: ");
    done(&desk, &claim("Rudder", CELLS, "0"), 1, "granted: `Rudder` is held as row 0\n");
    // Both look at the ledger and see edition 1; one of them is served first.
    assert_eq!(desk.edition(), 1);
    done(&desk, &claim("Sonar north", CELLS, "1"), 2, "granted: `Sonar north` is held as row 1");
    let sent = "edition 1 was sent, and the ledger has edition 2";
    refused(&desk, &claim("Sonar south", CELLS, "1"), Some(10), 2, &[sent]);
    // The other looks again, and is told that there is no room.
    assert_eq!(desk.edition(), 2);
    no_room(&desk, &claim("Sonar south", CELLS, "2"), 2, 3, 3);
    // Once the first gives it back, the room can be claimed again.
    done(&desk, &["withdraw", "Sonar north", "--edition", "2"], 3, "withdrawn: `Sonar north`, ");
    refused(&desk, &claim("Sonar south", CELLS, "2"), Some(10), 3, &["edition 2 was sent"]);
    done(&desk, &claim("Sonar south", CELLS, "3"), 4, "granted: `Sonar south` is held as row 1");
    assert_eq!(desk.bytes(), Ledger::of(4, &["Rudder", "Sonar south"], WORDS).bytes());
    assert_eq!(desk.files(), ["deck.ledger", "deck.ledger.lock"]);
}

#[test]
fn made() {
    let desk = Desk::nothing("made");
    let nothing = "made: a ledger that holds nothing, ";
    done(&desk, &["new"], 0, &format!("{nothing}times in bit times\n"));
    assert_eq!(desk.bytes(), Ledger::default().bytes());
    refused(&desk, &["new"], None, 0, &["there is a file of this name already"]);
    fs::remove_file(&desk.path).expect("the ledger");
    done(&desk, &["new", "--bitrate", "250000"], 0, &format!("{nothing}250000 bits per second\n"));
    let ledger = Ledger { rate: Some(250_000), ..Ledger::default() };
    assert_eq!(desk.bytes(), ledger.bytes());
    assert_eq!(desk.files(), ["deck.ledger", "deck.ledger.lock"]);
    fs::remove_file(&desk.path).expect("the ledger");
    let (object, status) = desk.json(&["new", "--bitrate", "1"]);
    assert_eq!(object.keys(), ["verdict", "file", "edition", "bitrate"]);
    assert_eq!((object.get("verdict").text(), status), ("made", Some(0)));
    assert_eq!(object.get("bitrate").whole(), Some(1));
}

// Whatever is there is left as it is, and gets no lock beside it.
#[test]
fn not_made() {
    let desk = Desk::nothing("not_made");
    desk.put(HEADER.as_bytes());
    let said = desk.run(&["new"]);
    assert!(said.err.contains(": there is a file of this name already, and it is left as it is"));
    assert_eq!((said.status, desk.bytes()), (Some(2), HEADER.as_bytes().to_vec()));
    assert_eq!(desk.files(), ["deck.ledger"]);
    for (path, part) in [("no/such/directory/a.ledger", "cannot be made"), ("/", "of this name")] {
        let said = run(&["desk", path, "new"]);
        assert!(said.err.contains(part) && said.status == Some(2), "{said:?}");
    }
    #[cfg(unix)]
    {
        let desk = Desk::nothing("not_made_link");
        std::os::unix::fs::symlink("nowhere", &desk.path).expect("a link");
        let said = desk.run(&["new"]);
        assert!(said.err.contains("there is a file of this name already"), "{said:?}");
        assert_eq!(desk.files(), ["deck.ledger"]);
    }
}

#[test]
fn granted_and_withdrawn() {
    let desk = Desk::with("granted", &Ledger::default());
    let words: [[u32; 6]; 3] =
        [[0, 2, 8, 9000, 9000, 7], [64, 1, 0, 8000, 8000, 0], [64, 0, 95, 7000, 7000, 1]];
    let cells = [
        ["Priority", "EXT 8", "9000", "9000", "7"],
        ["fifo 64", "std 0", "8000", "8000", "0"],
        ["fifo  64", " bits 95 ", "7000", "07000", "1"],
    ];
    let names = ["Main engine", "網", "-x"];
    done(&desk, &claim(names[0], cells[0], "0"), 1, "granted: `Main engine` is held as row 0\n");
    let (object, status) = desk.json(&claim(" 網 ", cells[1], "1"));
    assert_eq!(object.keys(), ["verdict", "file", "edition", "name", "row"]);
    assert_eq!((object.get("verdict").text(), status), ("granted", Some(0)));
    assert_eq!((object.get("name").text(), object.get("row").whole()), ("網", Some(1)));
    assert_eq!(object.get("edition").whole(), Some(2));
    let mut dashed = vec!["claim", "--edition", "2", "--", "-x"];
    dashed.extend(cells[2]);
    done(&desk, &dashed, 3, "granted: `-x` is held as row 2\n");
    let mut ledger = Ledger { edition: 3, words: words.concat(), ..Ledger::default() };
    ledger.names = names.map(String::from).to_vec();
    assert_eq!(desk.bytes(), ledger.bytes());
    // By its name, and by the number that its row has then.
    let (object, status) = desk.json(&["withdraw", "Main engine", "--edition", "3"]);
    assert_eq!(object.keys(), ["verdict", "file", "edition", "name", "row"]);
    assert_eq!((object.get("verdict").text(), status), ("withdrawn", Some(0)));
    assert_eq!(object.get("edition").whole(), Some(4));
    (ledger.edition, ledger.words) = (4, words[1..].concat());
    ledger.names.remove(0);
    assert_eq!(desk.bytes(), ledger.bytes());
    done(&desk, &["withdraw", "1", "--edition", "4"], 5, "withdrawn: `-x`, which was row 1, is no");
    (ledger.edition, ledger.words) = (5, words[1].to_vec());
    ledger.names.truncate(1);
    assert_eq!(desk.bytes(), ledger.bytes());
    done(&desk, &["withdraw", " 網 ", "--edition", "5"], 6, "withdrawn: `網`, which was row 0, ");
    assert_eq!(desk.bytes(), Ledger { edition: 6, ..Ledger::default() }.bytes());
    assert_eq!(desk.files(), ["deck.ledger", "deck.ledger.lock"]);
}

// As in a table: period and deadline go down to whole bit times, jitter goes up.
#[test]
fn milliseconds() {
    let ledger = Ledger { rate: Some(250_000), ..Ledger::default() };
    let desk = Desk::with("milliseconds", &ledger);
    let cells = ["priority", "ext 8", "10", "9.9999", "0.0001"];
    done(&desk, &claim("A", cells, "0"), 1, "granted: ");
    let words = vec![0, 2, 8, 2500, 2499, 1];
    let names = vec!["A".to_string()];
    assert_eq!(desk.bytes(), Ledger { edition: 1, names, words, ..ledger }.bytes());
    let shown = desk.run(&["show"]).out;
    assert!(shown.contains(", edition 1: 1 message, 250000 bits per second\n"), "{shown}");
    assert!(shown.contains("figure ms  allowed ms  slack ms\n"), "{shown}");
    let (object, _) = desk.json(&["show"]);
    assert_eq!(object.get("bitrate").whole(), Some(250_000));
    let bad = claim("B", ["priority", "ext 8", "10", "20", "0"], "1");
    refused(&desk, &bad, Some(3), 1, &["column deadline: ", "`20` is not allowed: it comes to"]);
}

/// The messages of this table as find shows them, in text and in JSON.
fn as_find(rows: &str) -> (String, Json) {
    let path = file("as_find.csv", format!("{HEADER}{rows}").as_bytes());
    let text = run(&["find", &path]).out;
    let lines = text.lines().filter(|line| line.starts_with("  "));
    let table = lines.map(|line| format!("{line}\n")).collect();
    (table, json::read(&run(&["find", &path, "--json"]).out))
}

#[test]
fn shown() {
    let desk = Desk::with("shown", &Ledger { edition: 7, ..Ledger::default() });
    done(&desk, &["show"], 7, "empty: no message is held, times in bit times\n");
    let (empty, status) = desk.json(&["show"]);
    let keys = ["verdict", "file", "edition", "bitrate", "order", "tried", "messages"];
    assert_eq!((empty.keys(), status), (keys.to_vec(), Some(0)));
    assert_eq!((empty.get("order").text(), empty.get("messages").items()), ("", &[][..]));
    assert_eq!(desk.files(), ["deck.ledger"]);
    // The same figures as for a table with these messages.
    let rows = [[1, 0, 100, 1000, 1000, 0], [1, 0, 60, 1000, 600, 0], [0, 0, 80, 500, 500, 0]];
    let names = ["Winch load", "Winch speed", "Rudder"].map(String::from).to_vec();
    desk.put(&Ledger { edition: 8, rate: None, names, words: rows.concat() }.bytes());
    let (table, found) = as_find(
        "Winch load,fifo 1,bits 100,1000,1000,0\nWinch speed,fifo 1,bits 60,1000,600,0\n\
         Rudder,priority,bits 80,500,500,0\n",
    );
    let text = desk.run(&["show"]);
    let title = format!("{}, edition 8: 3 messages, times in bit times\n", desk.name());
    let order = "shown: order 'Rudder,Winch load,Winch speed' (2 tried)\n";
    assert_eq!((text.out, text.status), (format!("{title}{table}{order}"), Some(0)));
    let (object, status) = desk.json(&["show"]);
    assert_eq!((object.keys(), status), (keys.to_vec(), Some(0)));
    assert_eq!(object.get("edition").whole(), Some(8));
    assert_eq!(object.get("order"), found.get("order"));
    assert_eq!(object.get("tried"), found.get("tried"));
    let shown = object.get("messages").items().iter().zip(found.get("messages").items());
    for (held, message) in shown {
        // A ledger has no lines.
        for key in message.keys().into_iter().filter(|key| *key != "line") {
            assert_eq!(held.get(key), message.get(key), "{key}");
        }
        assert_eq!(held.find("line"), None);
    }
    assert_eq!(desk.files(), ["deck.ledger"]);
}

// A ledger that was not made at the desk, but is one.
#[test]
fn shown_without_an_order() {
    let desk = Desk::with("no_order", &Ledger::of(3, &["A", "B", "C"], WORDS));
    let text = desk.run(&["show"]);
    let expected = format!(
        "{}, edition 3: 3 messages, times in bit times\nno order: 3 bands cannot be placed, 3 \
         tried\n",
        desk.name()
    );
    assert_eq!((text.out, text.status), (expected, Some(1)));
    let (object, status) = desk.json(&["show"]);
    assert_eq!((object.get("verdict").text(), status), ("no order", Some(1)));
    assert_eq!((object.get("number").whole(), object.get("edition").whole()), (Some(8), Some(3)));
    no_room(&desk, &claim("D", CELLS, "3"), 3, 4, 4);
    done(&desk, &["withdraw", "B", "--edition", "3"], 4, "withdrawn: `B`");
    assert_eq!(desk.run(&["show"]).status, Some(0));
}
