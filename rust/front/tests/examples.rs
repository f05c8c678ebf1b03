//! The examples, and what the program says of each of them: word for word what is stored in
//! examples/expected. There a name is the example, the command and, with a dash, the order; an
//! example without an ending is a CSV.

mod common;

use std::fs;

use common::json::{self, Json};
use common::{root, run, run_here};

/// Each stored answer: the example, the command, the order if there is one, and the exit status.
const ANSWERS: [(&str, &str, Option<&str>, i32); 18] = [
    ("table_a", "judge", None, 1),
    ("table_a", "judge", Some("3,1,0,2"), 0),
    ("table_a", "find", None, 0),
    ("fifo_mix", "judge", None, 0),
    ("fifo_mix", "judge", Some("2,0,1"), 0),
    ("fifo_mix", "judge", Some("0,2,1"), 2),
    ("fifo_mix", "find", None, 0),
    ("late", "judge", None, 1),
    ("late", "find", None, 1),
    ("no_order", "judge", None, 1),
    ("no_order", "find", None, 1),
    ("deck", "judge", None, 1),
    ("deck", "find", None, 0),
    ("table_a.book", "judge", None, 1),
    ("table_a.book", "judge", Some("3,1,0,2"), 0),
    ("table_a.book", "find", None, 0),
    ("damaged.book", "judge", None, 2),
    ("damaged.book", "find", None, 2),
];

/// The file of this example.
fn path(example: &str) -> String {
    let ending = if example.contains('.') { "" } else { ".csv" };
    format!("examples/{example}{ending}")
}

/// The arguments that ask for this answer, and where it is stored.
fn question(example: &str, command: &str, order: Option<&str>) -> (Vec<String>, String) {
    let mut args = vec![command.to_string(), path(example)];
    args.extend(order.map(str::to_string));
    let dash = order.map(|order| format!("-{}", order.replace(',', "_"))).unwrap_or_default();
    (args, format!("{example}.{command}{dash}"))
}

fn stored(name: &str) -> String {
    let path = root().join("examples/expected").join(name);
    fs::read_to_string(&path).unwrap_or_else(|error| panic!("{}: {error}", path.display()))
}

#[test]
fn for_people() {
    for (example, command, order, status) in ANSWERS {
        let (args, name) = question(example, command, order);
        let said = run(&args);
        let (text, other) = if status == 2 { (said.err, said.out) } else { (said.out, said.err) };
        assert_eq!(text, stored(&format!("{name}.txt")), "{name}");
        assert_eq!((other.as_str(), said.status), ("", Some(status)), "{name}");
    }
}

#[test]
fn for_programs() {
    for (example, command, order, status) in ANSWERS {
        let (mut args, name) = question(example, command, order);
        args.insert(0, "--json".to_string());
        let said = run(&args);
        assert_eq!(said.out, stored(&format!("{name}.json")), "{name}");
        assert_eq!((said.err.as_str(), said.status), ("", Some(status)), "{name}");
        json::read(&said.out);
    }
}

/// The rows, highest priority first, and their figures, as this stored answer has them.
fn rows_and_figures(name: &str) -> Vec<(u32, Option<u32>)> {
    let answer = json::read(&stored(&format!("{name}.json")));
    let items = answer.get("messages").items().iter();
    items
        .map(|item| (item.get("row").whole().expect("a row"), item.get("figure").whole()))
        .collect()
}

// The sums done by hand in document 01, cases a to e, g and i: what is stored agrees with them.
#[test]
fn as_in_document_01() {
    let all = |rows: &[(u32, u32)]| rows.iter().map(|&(row, f)| (row, Some(f))).collect::<Vec<_>>();
    let a = rows_and_figures("table_a.judge-3_1_0_2");
    assert_eq!(a, all(&[(3, 200), (1, 325), (0, 450), (2, 575)]));
    let b = rows_and_figures("table_a.find");
    assert_eq!(b, all(&[(3, 200), (1, 325), (2, 450), (0, 575)]));
    assert_eq!(json::read(&stored("table_a.find.json")).get("tried").whole(), Some(5));
    assert_eq!(rows_and_figures("table_a.book.judge-3_1_0_2"), a);
    assert_eq!(rows_and_figures("table_a.book.find"), b);
    let c = rows_and_figures("fifo_mix.judge-2_0_1");
    assert_eq!(c, all(&[(2, 180), (0, 340), (1, 340)]));
    assert_eq!(rows_and_figures("fifo_mix.judge"), all(&[(0, 260), (1, 260), (2, 320)]));
    let e = json::read(&stored("fifo_mix.judge-0_2_1.json"));
    assert_eq!(e.get("number").whole(), Some(7));
    assert_eq!(rows_and_figures("late.judge"), [(0, None), (1, Some(60))]);
    let i = json::read(&stored("no_order.find.json"));
    let carried = ["number", "unplaced", "tried"].map(|key| i.get(key).whole());
    assert_eq!(carried, [Some(8), Some(2), Some(2)]);
}

// The same in the text as in the JSON: each line of the table has the values of its message.
#[test]
fn both_say_the_same() {
    for (example, command, order, status) in ANSWERS.into_iter().filter(|answer| answer.3 != 2) {
        let (_, name) = question(example, command, order);
        let (text, json) = (stored(&format!("{name}.txt")), stored(&format!("{name}.json")));
        let object = json::read(&json);
        let Some(messages) = object.find("messages") else {
            // What it is about, the verdict, and what to do next.
            assert_eq!(text.lines().count(), 3, "{name}");
            let next = format!("\nnext: telhavina judge {} [ORDER] shows ", path(example));
            assert!(text.contains(&next), "{name}");
            continue;
        };
        let lines: Vec<&str> = text.lines().skip(2).collect();
        assert_eq!(lines.len(), messages.items().len() + 1, "{name}");
        for (line, message) in lines.iter().zip(messages.items()) {
            let late = message.get("late") == &Json::Bool(true);
            assert_eq!(line.starts_with('!'), late, "{line}");
            assert!(line.get(2..).expect("a line").starts_with(message.get("name").text()));
            let words: Vec<&str> = line.split_whitespace().collect();
            for key in ["figure", "slack", "allowed_ms", "slack_ms"] {
                let Some(Json::Number(number)) = message.find(key) else { continue };
                assert!(words.contains(&number.as_str()), "{key} {number}: {line}");
            }
        }
        assert_eq!(status == 1, object.get("verdict").text() == "late", "{name}");
    }
}

// 'An order line that can be pasted as ORDER': it passes, with the same table.
#[test]
fn the_order_found_can_be_judged() {
    for example in ["table_a", "fifo_mix", "deck", "table_a.book"] {
        let found = json::read(&stored(&format!("{example}.find.json")));
        let order = found.get("order").text();
        let line = stored(&format!("{example}.find.txt"));
        assert!(line.contains(&format!("order {order} (")) || line.contains(&format!("'{order}'")));
        let judged = run(&["judge", &path(example), order, "--json"]);
        assert_eq!(judged.status, Some(0), "{judged:?}");
        assert_eq!(json::read(&judged.out).get("messages"), found.get("messages"));
    }
}

// The book is that of the table, and its damaged copy differs in where row 2 is said to start.
#[test]
fn the_book_of_table_a() {
    let book = fs::read(root().join("examples/table_a.book")).expect("the example");
    let packed = run_here(&["pack", &root().join("examples/table_a.csv").to_string_lossy()], b"");
    assert_eq!((packed.out, packed.err.as_str(), packed.status), (book.clone(), "", 0));
    let damaged = fs::read(root().join("examples/damaged.book")).expect("the example");
    let places = book.iter().zip(&damaged).zip(0..).filter(|((a, b), _)| a != b);
    assert_eq!(places.map(|(_, place)| place).collect::<Vec<_>>(), [2 + 4 * 2 + 3]);
    assert_eq!(book.len(), damaged.len());
}
