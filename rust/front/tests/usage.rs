//! The command line itself: help, misuse, orders, and an output that nobody reads.

mod common;

use std::io;
use std::path::Path;
use std::process::Stdio;

use common::json::{self, Json};
use common::{command, file, root, run, run_on, said, HEADER};

const TABLE_A: &str = "examples/table_a.csv";

#[test]
fn help() {
    for args in [&["--help"][..], &["-h"], &["help"], &["judge", "--help"], &["--json", "-h", "x"]]
    {
        let said = run(args);
        assert_eq!((said.err.as_str(), said.status), ("", Some(0)), "{args:?}");
        let parts = ["usage", "ORDER", "# bitrate", HEADER, "figure", "exit status", "example"];
        for part in parts.iter().chain(&["pack TABLE.csv > BOOK", "unpack [BOOK]", "the book"]) {
            assert!(said.out.contains(part), "{part}");
        }
        assert!(said.out.lines().all(|line| line.chars().count() <= 100));
    }
}

// The example and the file that the help shows are true.
#[test]
fn the_help_can_be_followed() {
    let help = run(&["--help"]).out;
    let example = help.lines().last().expect("an example").trim();
    let args: Vec<&str> = example.split(' ').skip(1).collect();
    assert_eq!(run(&args).status, Some(0), "{example}");
    let lines = help.lines().skip_while(|line| !line.contains("# bitrate")).take(5);
    let table: String = lines.map(|line| format!("{}\n", line.trim())).collect();
    let said = run(&["find", &file("from_help.csv", table.as_bytes())]);
    assert_eq!(said.status, Some(0), "{said:?}");
}

// What can go wrong with a book without a word from the program is in the help, and the format.
#[test]
fn the_help_on_books() {
    let help = run(&["--help"]).out;
    let words = help.split_whitespace().collect::<Vec<_>>().join(" ");
    for part in [
        "BOOK has to be another file than TABLE.csv: the shell empties it first.",
        "once its lines are moved, the message called rowN is no longer row N of the book.",
        "Send the bit rate along with it",
        "the row count, 2 bytes; for each row its offset, 4 bytes, where row i starts at 2 + 4n + \
         24i; these high",
        "these high byte first. Then for each row six words of 4 bytes, low byte first: queue ",
        "size, period, deadline, jitter. 2 + 28n bytes in all.",
        "Rows with numbers out of range (refusal 3) are written as well, if they fit 32 bits.",
        "2 refused, or not readable; a wrong command line; an answer that cannot be written",
        "In the place of a file, - is standard input; a file called - is ./- (or - after --).",
        "if its first byte is zero, or its second after a control character, unless it looks like \
         UTF-16 text",
    ] {
        assert!(words.contains(part), "{part} in {words}");
    }
    // The sums of the help, for the book that is there.
    let made = std::fs::read(root().join("examples/table_a.book")).expect("an example");
    let n = usize::from(u16::from_be_bytes([made[0], made[1]]));
    assert_eq!((n, made.len()), (4, 2 + 28 * n));
    for i in 0..n {
        let offset = made[2 + 4 * i..][..4].try_into().expect("an offset");
        assert_eq!(u32::from_be_bytes(offset) as usize, 2 + 4 * n + 24 * i);
    }
    assert_eq!(made[2 + 4 * n + 8..][..4], 125_u32.to_le_bytes());
}

/// The keys of this object as the help lists them, with those of an object in it after its own.
fn listed(object: &Json) -> String {
    let keys = object.keys().into_iter().filter(|key| *key != "verdict");
    let keys = keys.map(|key| match object.get(key) {
        Json::Object(_) => format!("{key} ({})", object.get(key).keys().join(", ")),
        _ => key.to_string(),
    });
    keys.collect::<Vec<_>>().join(", ")
}

// Each verdict stands in the help with the keys that its object has.
#[test]
fn the_help_lists_the_keys() {
    let help = run(&["--help"]).out;
    let listed_so = |args: &[&str], verdict: &str| {
        let object = json::read(&run(args).out);
        assert_eq!(object.get("verdict").text(), verdict);
        let line = format!("\n  {verdict:12}{}", listed(&object));
        let rest = help.split_once(&line).unwrap_or_else(|| panic!("{line} in {help}")).1;
        assert!(rest.starts_with(['\n', ':']), "{line}{rest}");
        object
    };
    let passed = listed_so(&["judge", TABLE_A, "C,F,A,B", "--json"], "passed");
    listed_so(&["judge", "examples/late.csv", "--json"], "late");
    let found = listed_so(&["find", "examples/deck.csv", "--json"], "found");
    listed_so(&["find", "examples/no_order.csv", "--json"], "no order");
    let row = |row: &str| file("for_help.csv", format!("{HEADER}{row}\n").as_bytes());
    listed_so(&["find", &row("A,priority,std 9,9,9,0"), "--json"], "refused");
    listed_so(&["find", &row("A,priority,8,9,9,0"), "--json"], "unreadable");
    listed_so(&["--json"], "usage");
    // Of the messages, first what is there without a bit rate.
    let all = listed(&found.get("messages").items()[0]);
    let first = listed(&passed.get("messages").items()[0]);
    let with_rate = all.strip_prefix(&format!("{first}, ")).expect("more with a bit rate");
    let words = help.split_whitespace().collect::<Vec<_>>().join(" ");
    assert!(words.contains(&format!("has {first} and, with a bit rate, {with_rate}.")), "{words}");
}

// The help says so, and so it is.
#[test]
fn case_and_blanks_do_not_matter() {
    let help = run(&["--help"]).out;
    let words = help.split_whitespace().collect::<Vec<_>>().join(" ");
    assert!(words.contains("Blanks around a cell do not matter."), "{help}");
    assert!(words.contains("in the header, in the queue and in the words std, ext and bits;"));
    let rows =
        "A,fifo 1,std 8,1000,1000,0\na,priority,ext 8,1000,1000,0\nB,fifo 1,bits 9,1000,1000,0\n";
    let plain = format!("{HEADER}{rows}");
    let path = file("case.csv", plain.as_bytes());
    let expected = run(&["find", &path]);
    assert_eq!(expected.status, Some(0), "{expected:?}");
    let upper = ["fifo", "priority", "std", "ext", "bits"]
        .iter()
        .fold(plain.clone(), |text, word| text.replace(word, &word.to_uppercase()));
    let upper = upper.replace(HEADER.trim(), &HEADER.trim().to_uppercase());
    for text in [upper.clone(), plain.replace(',', " , "), upper.replace(',', "  ,  ")] {
        let said = run(&["find", &file("case.csv", text.as_bytes())]);
        assert_eq!((said.out, said.status), (expected.out.clone(), expected.status), "{text}");
    }
}

#[test]
fn misuse() {
    let cases: [(&[&str], &str); 22] = [
        (&[], "a command is missing"),
        (&["jugde", TABLE_A], "no command `jugde`; did you mean `judge`?"),
        (&["unpak"], "no command `unpak`; did you mean `unpack`?"),
        (&["PACK", TABLE_A], "no command `PACK`; did you mean `pack`?"),
        (&["Hlep"], "no command `Hlep`; did you mean `help`?"),
        (&["-"], "no command `-`"),
        (&[""], "no command ``"),
        (&["judge"], "the file is missing"),
        (&["find"], "the file is missing"),
        (&["judge", ""], "the file is missing"),
        (&["pack"], "the file is missing: telhavina pack TABLE.csv > BOOK"),
        (&["unpack", ""], "the file is missing: telhavina unpack BOOK > TABLE.csv"),
        (&["pack", TABLE_A, "a.book"], "pack takes one file and nothing else, and `a.book`"),
        (&["unpack", "a.book", "-"], "unpack takes one file and nothing else, and `-`"),
        (&["pack", TABLE_A, "-o"], "no option `-o`"),
        (&["unpack", "-", "--to=a.csv"], "no option `--to=a.csv`"),
        (&["find", TABLE_A, "C,F,B,A"], "find takes one file"),
        (&["judge", TABLE_A, "C,F,", "B,A"], "quotes"),
        (&["judge", TABLE_A, "--jsn"], "no option `--jsn`"),
        (&["judge", TABLE_A, "-x,A"], "after --"),
        (&["--", "--help"], "no command `--help`"),
        (&["\u{1b}[2J"], "no command `\\u{1b}[2J`"),
    ];
    for (args, part) in cases {
        let said = run(args);
        assert_eq!((said.out.as_str(), said.status), ("", Some(2)), "{args:?}");
        assert!(said.err.contains(part), "{said:?}");
        assert!(said.err.contains("usage: telhavina judge TABLE.csv [ORDER] [--json]"), "{said:?}");
        if ["pack", "unpack"].iter().any(|command| args.first() == Some(command)) {
            continue;
        }
        // A program that asks for JSON is answered in JSON, and in nothing else.
        let mut args = args.to_vec();
        args.insert(0, "--json");
        let said = run(&args);
        assert_eq!((said.err.as_str(), said.status), ("", Some(2)), "{args:?}");
        let object = json::read(&said.out);
        assert_eq!(object.get("verdict").text(), "usage");
        assert!(object.get("message").text().contains(part), "{said:?}");
    }
}

// Where the answer is a file, an object would end up in it: whatever is wrong, none is written.
#[test]
fn no_json_for_files() {
    let (pack, unpack) = ("pack takes no --json: its answer is a book\n", "its answer is a CSV\n");
    let cases: [(&[&str], &str); 6] = [
        (&["pack", TABLE_A, "--json"], pack),
        (&["--json", "pack"], pack),
        (&["pack", "--jsn", "--json", TABLE_A], pack),
        (&["pack", "--json", "no/such/file.csv"], pack),
        (&["unpack", "--json", "examples/table_a.book"], unpack),
        (&["--json", "unpack", "a.book", "b.csv"], unpack),
    ];
    for (args, part) in cases {
        let said = run(args);
        assert_eq!((said.out.as_str(), said.status), ("", Some(2)), "{args:?}");
        assert!(said.err.contains(part) && said.err.contains("\nusage: telhavina "), "{said:?}");
    }
    assert_eq!(run(&["pack", "--json", "--help"]).status, Some(0));
}

/// What is said of the standard input, with the name of this file in the place of its own.
fn said_of_input(args: &[&str], path: &str) -> common::Said {
    let said = run_on(args, path);
    let named = |text: &str| text.replace("standard input", path).replace("judge - [", "judge F [");
    common::Said { out: named(&said.out), err: named(&said.err), ..said }
}

// A dash is the standard input to all commands, in answers and in complaints.
#[test]
fn a_dash_is_the_standard_input() {
    for path in [TABLE_A, "examples/no_order.csv", "examples/table_a.book", "examples/damaged.book"]
    {
        for args in
            [&["judge", "-"][..], &["judge", "-", "1,0"], &["find", "-"], &["find", "-", "--json"]]
        {
            let with_file: Vec<&str> =
                args.iter().map(|&arg| if arg == "-" { path } else { arg }).collect();
            let (input, file) = (said_of_input(args, path), run(&with_file));
            let out = file.out.replace(&format!("judge {path} ["), "judge F [");
            assert_eq!(
                (input.out, input.err, input.status),
                (out, file.err, file.status),
                "{args:?}"
            );
        }
    }
    let packed = run_on(&["pack", "-"], "examples/late.csv");
    assert_eq!((packed.err.as_str(), packed.status), ("", Some(0)));
    assert!(packed.out.starts_with("\0\u{2}\0\0\0\u{a}"), "{packed:?}");
    let bad = run_on(&["pack", "-"], "examples/table_a.book");
    assert!(bad.err.starts_with("standard input: this looks like a book"), "{bad:?}");
    let next = run_on(&["find", "-"], "examples/no_order.csv").out;
    assert!(next.contains("\nnext: telhavina judge - [ORDER] shows "), "{next}");
}

// A file of that name can be had, and is no standard input; nor is an ORDER.
#[test]
fn a_file_called_dash() {
    let rows = "-,priority,bits 10,100,100,0\n";
    let directory = Path::new(env!("CARGO_TARGET_TMPDIR")).join("dash");
    std::fs::create_dir_all(&directory).expect("a directory for the test");
    file("dash/-", format!("{HEADER}{rows}").as_bytes());
    let here = |args: &[&str]| {
        let output = command().current_dir(&directory).args(args).stdin(Stdio::null()).output();
        said(output.expect("the program runs"))
    };
    let cases: [(&[&str], &str); 4] = [
        (&["judge", "--", "-"], "-: 1 message, "),
        (&["--", "find", "-"], "-: 1 message, "),
        (&["judge", "./-", "-"], "./-: 1 message, "),
        (&["judge", "--", "-", "-"], "-: 1 message, "),
    ];
    for (args, start) in cases {
        let said = here(args);
        assert!(said.out.starts_with(start) && said.status == Some(0), "{said:?}");
    }
    for args in [["pack", "--", "-"], ["--", "pack", "-"]] {
        assert_eq!(here(&args).status, Some(0), "{args:?}");
    }
    for args in [&["unpack", "--", "-"][..], &["--", "unpack", "-"], &["unpack", "./-"]] {
        assert!(here(args).err.contains("-: this is a text and not a book"), "{args:?}");
    }
    let input = here(&["find", "-"]);
    assert!(input.err.starts_with("standard input, line 1: the file is empty, "), "{input:?}");
}

#[test]
#[cfg(unix)]
fn arguments_that_are_not_utf_8() {
    use std::ffi::OsStr;
    use std::os::unix::ffi::OsStrExt;
    let strange = OsStr::from_bytes(b"\xFF\x1B");
    let order = run(&[OsStr::new("judge"), OsStr::new(TABLE_A), strange]);
    assert!(order.err.contains("the ORDER is not UTF-8"), "{order:?}");
    let file = run(&[OsStr::new("find"), strange]);
    assert!(file.err.contains("cannot be read"), "{file:?}");
    let command = run(&[strange]);
    assert!(command.err.contains("no command"), "{command:?}");
    assert_eq!([order.status, file.status, command.status], [Some(2); 3]);
}

// A file's name can hold anything: on one line for people, and back again from JSON.
#[test]
#[cfg(unix)]
fn a_file_with_a_strange_name() {
    let path =
        file("a\"b\\\n\u{1b}ø.csv", format!("{HEADER}ø,priority,std 8,999,999,0\n").as_bytes());
    let people = run(&["find", &path]);
    assert!(people.out.contains("a\"b\\\\n\\u{1b}ø.csv: 1 message, "), "{people:?}");
    assert_eq!((people.out.lines().count(), people.status), (4, Some(0)));
    let object = json::read(&run(&["find", &path, "--json"]).out);
    assert_eq!(object.get("file").text(), path);
    assert_eq!(object.get("messages").items()[0].get("name").text(), "ø");
    let fault = json::read(&run(&["judge", &path, "\t\"", "--json"]).out);
    assert_eq!(fault.get("file").text(), path);
    assert!(fault.get("message").text().contains("`\\t\"`"), "{fault:?}");
}

#[test]
fn orders_of_names_and_numbers() {
    let same =
        ["C,F,A,B", "3,1,0,2", " C , 1,A ,2", "03,F,0,B"].map(|o| run(&["judge", TABLE_A, o]));
    for said in &same {
        assert_eq!((&said.out, said.status), (&same[0].out, Some(0)));
    }
    let after_dashes = run(&["judge", "--", TABLE_A, "C,F,A,B"]);
    assert_eq!(after_dashes.out, same[0].out);
}

/// Judging this order of the table is turned down with these parts in the words, and this number.
#[track_caller]
fn turned_down(table: &str, order: &str, number: Option<u32>, parts: &[&str]) {
    let said = run(&["judge", table, order]);
    assert_eq!((said.out.as_str(), said.status), ("", Some(2)), "{order}");
    assert!(said.err.starts_with(table), "{said:?}");
    for part in parts {
        assert!(said.err.contains(part), "{part} in {said:?}");
    }
    let said_json = run(&["judge", table, order, "--json"]);
    assert_eq!((said_json.err.as_str(), said_json.status), ("", Some(2)), "{order}");
    let object = json::read(&said_json.out);
    assert_eq!(object.find("number").and_then(Json::whole), number, "{order}");
    assert_eq!(object.get("file").text(), table);
    assert!(said.err.ends_with(&format!("{}\n", object.get("message").text())), "{said:?}");
}

#[test]
fn orders_that_the_front_cannot_hand_on() {
    turned_down(TABLE_A, "C,X,A,B", None, &["`X` (place 1)", "`A`, `F`, `B`, `C`"]);
    turned_down(TABLE_A, "C,f,A,B", None, &["`f` (place 1)", "did you mean `F`?"]);
    turned_down(TABLE_A, "C,F,A,4294967296", None, &["`4294967296` (place 3)"]);
    turned_down(TABLE_A, "C,F,,B", None, &["place 2 is empty"]);
    turned_down(TABLE_A, "C,F,A,B,", None, &["place 4 is empty", "comma"]);
}

#[test]
fn refusals_5_to_7() {
    let (five, six, seven) = (Some(5), Some(6), Some(7));
    turned_down(TABLE_A, "C,F,A", five, &["refusal 5", "3 entries for 4 messages", "missing: `B`"]);
    turned_down(TABLE_A, "", five, &["0 entries", "missing: `A`, `F`, `B`, `C`"]);
    turned_down(TABLE_A, "C,F,A,B,3", five, &["5 entries for 4", "repeated: `3`"]);
    turned_down(TABLE_A, "C,F,A,B,9", five, &["not a row: `9`"]);
    turned_down(
        TABLE_A,
        "C,F,A,4",
        six,
        &["refusal 6", "`4` (place 3) is no row: rows are 0 to 3"],
    );
    turned_down(TABLE_A, "C,4294967295,A,B", six, &["`4294967295` (place 1) is no row"]);
    turned_down(TABLE_A, "C,F,3,B", six, &["`3` (place 2) repeats place 0", "missing: `A`"]);
    let split = ["refusal 7", "`Winch speed` (place 2) comes back to fifo 1", "`0` (place 0)"];
    turned_down("examples/fifo_mix.csv", "0,Rudder,Winch speed", seven, &split);
}

#[test]
fn a_name_that_is_the_number_of_another() {
    let rows = "1,priority,std 8,1000,1000,0\n0,priority,std 8,1000,1000,0\n";
    let table = file("numbers.csv", format!("{HEADER}{rows}").as_bytes());
    turned_down(&table, "0,1", None, &["`0` (place 0) is ambiguous", "name of row 1"]);
    let found = run(&["find", &table]);
    assert!(found.out.contains("order 01,00 (2 tried)"), "{found:?}");
    assert_eq!(run(&["judge", &table, "01,00"]).status, Some(0));
}

/// What is said where the reader left before the answer came.
fn to_nobody(args: &[&str]) -> common::Said {
    let (reader, writer) = io::pipe().expect("a pipe");
    drop(reader);
    let output = command().args(args).stdout(writer).stderr(Stdio::piped()).output();
    said(output.expect("the program runs"))
}

// No panic, and the verdict's own status.
#[test]
fn a_closed_output() {
    for (args, status) in [
        (["find", "examples/deck.csv"], 0),
        (["find", "examples/no_order.csv"], 1),
        (["judge", "examples/late.csv"], 1),
    ] {
        let said = to_nobody(&args);
        assert_eq!((said.err.as_str(), said.status), ("", Some(status)), "{args:?}");
    }
}

// A file that did not get through is none.
#[test]
fn a_closed_output_for_files() {
    for args in [["pack", "examples/deck.csv"], ["unpack", "examples/table_a.book"]] {
        let said = to_nobody(&args);
        assert!(said.err.starts_with("telhavina: the answer could not be written: "), "{said:?}");
        assert_eq!((said.err.lines().count(), said.status), (1, Some(2)), "{said:?}");
    }
}

// Nor is there a panic where complaints cannot be read.
#[test]
fn a_closed_error_output() {
    let (reader, writer) = io::pipe().expect("a pipe");
    drop(reader);
    let status = command().arg("jugde").stderr(writer).status().expect("the program runs");
    assert_eq!(status.code(), Some(2));
}

// An answer that did not get through is no answer.
#[test]
#[cfg(target_os = "linux")]
fn a_full_disk() {
    for args in [["find", TABLE_A], ["pack", TABLE_A], ["unpack", "examples/table_a.book"]] {
        let full = std::fs::File::options().write(true).open("/dev/full").expect("the full device");
        let output = command().args(args).stdout(full).stderr(Stdio::piped()).output();
        let said = said(output.expect("the program runs"));
        assert!(said.err.contains("could not be written"), "{said:?}");
        assert_eq!(said.status, Some(2));
    }
}
