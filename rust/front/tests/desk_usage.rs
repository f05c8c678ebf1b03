//! The desk's command line, the files that it is given, and what its help says.

mod common;

use std::fs;
use std::io;
use std::process::Stdio;

use common::desk::{claim, done, refused, Desk, Ledger, CELLS, SMALL, SMALL_WORDS};
use common::json::{self, Json};
use common::{run, run_on, said};

#[test]
fn misuse() {
    let cases: [(&[&str], &str); 27] = [
        (&["desk"], "the file is missing: telhavina desk LEDGER show"),
        (&["desk", ""], "the file is missing"),
        (&["desk", "-", "show"], "a ledger is a file, and cannot come from standard input"),
        (&["deks", "a.ledger", "show"], "no command `deks`; did you mean `desk`?"),
        (&["desk", "a.ledger"], "missing: new, claim, withdraw or show"),
        (&["desk", "a.ledger", "shwo"], "called `shwo` is done with a ledger; did you mean `show`"),
        (&["desk", "a.ledger", "CLAIM"], "did you mean `claim`?"),
        (&["desk", "a.ledger", "withdrawn"], "did you mean `withdraw`?"),
        (&["desk", "a.ledger", "nwe"], "did you mean `new`?"),
        (&["desk", "a.ledger", "grant"], "new, claim, withdraw and show are"),
        (&["desk", "show", "a.ledger"], "the ledger comes first (telhavina desk LEDGER show)"),
        (&["desk", "a.ledger", "show", "b"], "show takes a ledger and nothing else, and `b`"),
        (&["desk", "a.ledger", "new", "250000"], "new takes a ledger and nothing else"),
        (&["desk", "a.ledger", "show", "--edition", "1"], "show takes no --edition"),
        (&["desk", "a.ledger", "new", "--edition", "0"], "new takes no --edition"),
        (&["desk", "a.ledger", "new", "--bitrate"], "--bitrate is not followed by a number"),
        (&["desk", "a.ledger", "new", "--bitrate", "0"], "a bit rate is 1 to 4294967295 bits"),
        (&["desk", "a.ledger", "new", "--bitrate", "250k"], "`250k` is no whole number"),
        (&["desk", "a.ledger", "withdraw", "A"], "withdraw needs --edition N, the edition of the"),
        (&["desk", "a.ledger", "withdraw", "--edition", "1"], "withdraw takes one name, and there"),
        (&["desk", "a.ledger", "withdraw", "Main", "engine", "--edition", "1"], "stands in quotes"),
        (&["desk", "a.ledger", "withdraw", "A", "--edition", "x"], "--edition: `x` is no whole nu"),
        (&["desk", "a.ledger", "withdraw", "A", "--edition", "4294967296"], "does not fit 32 bits"),
        (
            &["desk", "a.ledger", "withdraw", "A", "--edition"],
            "--edition is not followed by a number",
        ),
        (
            &["desk", "a.ledger", "withdraw", "A", "--edition", "1", "--edition", "1"],
            "--edition is there twice",
        ),
        (&["find", "examples/table_a.csv", "--edition", "1"], "there is no option `--edition`"),
        (&["pack", "--bitrate", "1", "a.csv"], "there is no option `--bitrate`"),
    ];
    for (args, part) in cases {
        let said = run(args);
        assert_eq!((said.out.as_str(), said.status), ("", Some(2)), "{args:?}");
        assert!(said.err.starts_with("telhavina: ") && said.err.contains(part), "{said:?}");
        assert!(said.err.contains("\n       telhavina desk LEDGER show [--json]\n"), "{said:?}");
        if args[0] == "pack" {
            continue;
        }
        let said = run(&[&["--json"], args].concat());
        assert_eq!((said.err.as_str(), said.status), ("", Some(2)), "{args:?}");
        let object = json::read(&said.out);
        assert_eq!(object.get("verdict").text(), "usage");
        assert!(object.get("message").text().contains(part), "{said:?}");
    }
}

#[test]
fn misused_claims() {
    let desk = Desk::with("misused", &Ledger::of(5, &["A"], SMALL_WORDS));
    let before = desk.bytes();
    let good = claim("B", SMALL, "5");
    let without = &good[..7];
    let quotes = "(one with a blank in it stands in quotes, as 'std 8')";
    let cases: [(Vec<&str>, &str); 5] = [
        (without.to_vec(), "claim needs --edition N, the edition of the ledger that you saw"),
        ([&good[..6], &["--edition", "5"]].concat(), "claim takes 6 cells, and there are 5 "),
        ([&good[..], &["0"]].concat(), "claim takes 6 cells, and there are 7 "),
        ([&good[..3], &["std", "0"], &good[4..]].concat(), quotes),
        ([&good[..], &["--bitrate", "5"]].concat(), "claim takes no --bitrate"),
    ];
    for (args, part) in cases {
        let said = desk.run(&args);
        assert_eq!((said.out.as_str(), said.status), ("", Some(2)), "{args:?}");
        assert!(said.err.contains(part), "{part} in {said:?}");
    }
    assert_eq!((desk.bytes(), desk.files()), (before, vec!["deck.ledger".to_string()]));
}

// Each of the two ways: a ledger where a table or a book is expected, and the other way round.
#[test]
fn files_of_the_other_kind() {
    let desk = Desk::with("other_kind", &Ledger::of(5, &["A"], SMALL_WORDS));
    for (command, kind) in
        [("judge", "a table"), ("find", "a table"), ("pack", "a table"), ("unpack", "a book")]
    {
        let words =
            format!("this is a ledger, not {kind}: telhavina desk LEDGER show tells what it holds");
        let said = run(&[command, desk.name()]);
        assert_eq!(said.err, format!("{}: {words}\n", desk.name()));
        assert_eq!((said.out.as_str(), said.status), ("", Some(2)));
        let from_input = run_on(&[command, "-"], desk.name());
        assert_eq!(from_input.err, format!("standard input: {words}\n"));
    }
    for (path, part) in [
        ("examples/table_a.csv", "and its first line is another; telhavina desk LEDGER new makes"),
        ("examples/table_a.book", "and it looks like a book"),
        ("examples", "a ledger is a file"),
        ("no/such/file", "the file cannot be read: "),
    ] {
        for args in [vec!["show"], claim("A", SMALL, "0"), vec!["withdraw", "A", "--edition", "0"]]
        {
            let said = run(&[&["desk", path], &args[..]].concat());
            assert_eq!((said.out.as_str(), said.status), ("", Some(2)), "{path}");
            assert!(said.err.starts_with(&format!("{path}: ")), "{said:?}");
            assert!(said.err.contains(part), "{part} in {said:?}");
        }
    }
    // None of them got a lock.
    assert!(!common::root().join("examples/table_a.csv.lock").exists());
    assert_eq!(desk.files(), ["deck.ledger"]);
}

// The file that a link points to is replaced, and keeps its permissions; the lock stands beside it.
#[test]
#[cfg(unix)]
fn links_and_permissions() {
    use std::os::unix::fs::{symlink, MetadataExt, PermissionsExt};
    let desk = Desk::with("link_target", &Ledger::of(5, &["A"], SMALL_WORDS));
    let link = Desk::nothing("link");
    symlink(&desk.path, &link.path).expect("a link");
    let mode = |desk: &Desk| fs::metadata(&desk.path).expect("the ledger").mode() & 0o7777;
    for (edition, bits) in (5..).zip([0o600, 0o644, 0o664, 0o640]) {
        fs::set_permissions(&desk.path, fs::Permissions::from_mode(bits)).expect("permissions");
        let name = format!("M{edition}");
        done(&link, &claim(&name, SMALL, &edition.to_string()), edition + 1, "granted: ");
        assert_eq!((mode(&desk), desk.edition()), (bits, edition + 1));
    }
    assert!(fs::symlink_metadata(&link.path).expect("the link").is_symlink());
    assert_eq!(link.files(), ["deck.ledger"]);
    assert_eq!(desk.files(), ["deck.ledger", "deck.ledger.lock"]);
    // Who takes away the right to write means it.
    fs::set_permissions(&desk.path, fs::Permissions::from_mode(0o444)).expect("permissions");
    refused(&desk, &claim("B", SMALL, "9"), None, 9, &["the ledger is read-only"]);
}

// By whatever way the ledger is named, also from its own directory.
#[test]
fn a_bare_name() {
    let desk = Desk::nothing("bare");
    let directory = desk.path.parent().expect("a directory");
    let here = |args: &[&str]| {
        let output = common::command().current_dir(directory).args(args).output();
        said(output.expect("the program runs"))
    };
    for (args, start) in [
        (vec!["desk", "deck.ledger", "new"], "deck.ledger, edition 0: made: "),
        ([&["desk", "./deck.ledger"], &claim("A", SMALL, "0")[..]].concat(), "./deck.ledger, edi"),
        ([&["desk", "deck.ledger"], &claim("B", SMALL, "1")[..]].concat(), "deck.ledger, edition"),
        (vec!["desk", "--", "-", "new"], "-, edition 0: made: "),
        (vec!["desk", "./-", "show"], "./-, edition 0: empty: "),
    ] {
        let said = here(&args);
        assert!(said.out.starts_with(start) && said.status == Some(0), "{said:?}");
    }
    assert_eq!(desk.files(), ["-", "-.lock", "deck.ledger", "deck.ledger.lock"]);
}

#[test]
fn a_lock_that_cannot_be_had() {
    let desk = Desk::with("no_lock", &Ledger::of(5, &["A"], SMALL_WORDS));
    fs::create_dir(desk.path.with_extension("ledger.lock")).expect("a directory in its place");
    let before = desk.bytes();
    let said = desk.run(&claim("B", SMALL, "5"));
    assert!(said.err.contains(": the ledger cannot be locked ("), "{said:?}");
    assert_eq!((said.out.as_str(), said.status, desk.bytes()), ("", Some(2), before));
    assert_eq!(desk.edition(), 5);
}

// What is said to nobody is done all the same, as it would be had the reader left a moment later.
#[test]
fn a_closed_output() {
    let desk = Desk::with("closed_output", &Ledger::default());
    let (reader, writer) = io::pipe().expect("a pipe");
    drop(reader);
    let mut command = desk.command(&claim("A", SMALL, "0"));
    let output = command.stdout(writer).stderr(Stdio::piped()).output();
    let said = said(output.expect("the program runs"));
    assert_eq!((said.err.as_str(), said.status), ("", Some(0)));
    assert_eq!(desk.bytes(), Ledger::of(1, &["A"], SMALL_WORDS).bytes());
}

/// The keys of this object as the help lists them.
fn listed(object: &Json) -> String {
    object.keys().into_iter().filter(|key| *key != "verdict").collect::<Vec<_>>().join(", ")
}

// Each verdict stands in the help with the keys that its object has at the desk.
#[test]
fn the_help_lists_the_keys() {
    let help = run(&["--help"]).out;
    let desk = Desk::nothing("for_help");
    let cases: [(&[&str], &str); 7] = [
        (&["new"], "made"),
        (&["show"], "shown"),
        (&claim("A", CELLS, "0"), "granted"),
        (&claim("B", ["priority", "bits 100", "199", "199", "0"], "1"), "no order"),
        (&claim("B", ["priority", "std 9", "199", "199", "0"], "1"), "refused"),
        (&["withdraw", "A", "--edition", "1"], "withdrawn"),
        (&["claim"], "usage"),
    ];
    for (args, verdict) in cases {
        let (object, _) = desk.json(args);
        assert_eq!(object.get("verdict").text(), verdict);
        let line = format!("\n  {verdict:12}{}", listed(&object));
        let rest = help.split_once(&line).unwrap_or_else(|| panic!("{line} in {help}")).1;
        assert!(rest.starts_with(['\n', ':']), "{line}{rest}");
    }
    let words = help.split_whitespace().collect::<Vec<_>>().join(" ");
    for part in [
        "desk LEDGER claim NAME QUEUE LENGTH PERIOD DEADLINE JITTER --edition N [--json]",
        "Claim and withdraw need the edition that you saw.",
        "at the desk: made, granted, withdrawn, or shown 1 late, or no order; at the desk: no room",
        "the lines 'telhavina ledger 1', 'edition N', 'bitrate N' (if there is one), 'messages N'",
    ] {
        assert!(words.contains(part), "{part} in {words}");
    }
}
