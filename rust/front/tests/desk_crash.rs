//! A program that is stopped halfway: the old ledger is there or the new one, never half of one,
//! and what is left over hinders nobody.
#![cfg(unix)]

mod common;

use std::fs;
use std::process::{Command, Stdio};
use std::thread::sleep;
use std::time::{Duration, Instant};

use common::desk::{claim, Desk, Ledger, SMALL, SMALL_WORDS};
use common::{said, Said};
use tables::Prng;

const KILLS: u32 = 150;
/// The longest that a program lives before it is killed.
const LONGEST: Duration = Duration::from_millis(50);
/// The messages that are held throughout.
const NAMES: [&str; 8] = ["A", "B", "C", "D", "E", "F", "G", "H"];
/// The one that comes and goes.
const NAME: &str = "Sonar";

/// The ledger of this edition, with the last message or without it.
fn ledger(edition: u32, with: bool) -> Ledger {
    let names: Vec<&str> = NAMES.into_iter().chain(with.then_some(NAME)).collect();
    Ledger::of(edition, &names, SMALL_WORDS)
}

/// The arguments that change the ledger: the message comes if it is not there, or goes.
fn change(edition: &str, with: bool) -> Vec<&str> {
    match with {
        false => claim(NAME, SMALL, edition),
        true => vec!["withdraw", NAME, "--edition", edition],
    }
}

/// The files that calls have left which ended halfway.
fn left_over(desk: &Desk) -> Vec<String> {
    desk.files().into_iter().filter(|name| name.ends_with(".tmp")).collect()
}

/// How long a change takes, the longest of a few; no more than keeps the test short.
fn time_of_a_change(desk: &Desk, edition: &mut u32, with: &mut bool) -> Duration {
    let times = (0..6).map(|_| {
        let start = Instant::now();
        let said = desk.run(&change(&edition.to_string(), *with));
        assert_eq!(said.status, Some(0), "{said:?}");
        (*edition, *with) = (*edition + 1, !*with);
        start.elapsed()
    });
    times.max().unwrap_or_default().min(LONGEST)
}

#[test]
fn killed_at_any_time() {
    let desk = Desk::with("killed", &ledger(8, false));
    let (mut edition, mut with) = (8, false);
    let longest = time_of_a_change(&desk, &mut edition, &mut with);
    let mut prng = Prng::new(11);
    let (mut old, mut new, mut ended, mut halfway) = (0, 0, 0, 0);
    for kill in 0..KILLS {
        let before = ledger(edition, with).bytes();
        let after = ledger(edition + 1, !with).bytes();
        let left_before = left_over(&desk);
        let mut child = desk
            .command(&change(&edition.to_string(), with))
            .stdout(Stdio::null())
            .stderr(Stdio::null())
            .spawn()
            .expect("the program runs");
        let most = u32::try_from(longest.as_micros()).expect("a short time");
        sleep(Duration::from_micros(u64::from(prng.between(0, most))));
        // It may have ended by itself.
        let _ = child.kill();
        let status = child.wait().expect("the program ends");
        let bytes = desk.bytes();
        assert!(bytes == before || bytes == after, "kill {kill}");
        // What it said before the kill was done.
        assert!(!status.success() || bytes == after, "kill {kill}");
        ended += u32::from(status.success());
        halfway += u32::from(left_over(&desk).iter().any(|name| !left_before.contains(name)));
        match bytes == before {
            true => old += 1,
            false => {
                new += 1;
                (edition, with) = (edition + 1, !with);
            }
        }
        assert_eq!(desk.edition(), edition, "kill {kill}");
        assert_eq!(desk.json(&["show"]).0.get("messages").items().len(), 8 + usize::from(with));
    }
    println!("{KILLS} kills within {longest:?}: {old} times the old ledger, {new} times the new");
    println!("{ended} had ended by themselves; {halfway} times a file was left over");
    works_again(&desk, edition, with);
}

/// The next change is made as if nothing had happened, and tidies up.
#[track_caller]
fn works_again(desk: &Desk, edition: u32, with: bool) {
    let said = desk.run(&change(&edition.to_string(), with));
    assert_eq!((said.err.as_str(), said.status), ("", Some(0)));
    assert_eq!(desk.bytes(), ledger(edition + 1, !with).bytes());
    assert_eq!(desk.files(), ["deck.ledger", "deck.ledger.lock"]);
}

/// The change, made by a shell that lets no file grow; `before` is what it does beforehand.
fn without_room_on_disk(desk: &Desk, before: &str) -> Said {
    let script = format!("{before} ulimit -f 0 && exec \"$@\"");
    let mut shell = Command::new("sh");
    shell.args(["-c", &script, "sh", env!("CARGO_BIN_EXE_telhavina"), "desk"]);
    shell.arg(&desk.path).args(change("8", false));
    said(shell.output().expect("the shell runs"))
}

// Stopped in the middle of writing, for certain: the system ends it with its first byte.
#[test]
fn ended_by_its_first_byte() {
    let desk = Desk::with("first_byte", &ledger(8, false));
    for _ in 0..3 {
        let said = without_room_on_disk(&desk, "");
        assert_eq!((said.out.as_str(), said.status), ("", None), "{said:?}");
        assert_eq!(desk.bytes(), ledger(8, false).bytes());
        // Each call removes what the one before has left over.
        assert_eq!((desk.files().len(), left_over(&desk).len()), (3, 1));
        assert_eq!(desk.edition(), 8);
    }
    works_again(&desk, 8, false);
}

// The same where it lives to tell.
#[test]
fn no_room_on_disk() {
    let desk = Desk::with("no_room_on_disk", &ledger(8, false));
    let said = without_room_on_disk(&desk, "trap '' XFSZ;");
    assert_eq!((said.out.as_str(), said.status), ("", Some(2)), "{said:?}");
    let start =
        format!("{}, edition 8: the ledger cannot be written, and is as it was: ", desk.name());
    assert!(said.err.starts_with(&start), "{said:?}");
    assert_eq!(desk.bytes(), ledger(8, false).bytes());
    assert_eq!(desk.files(), ["deck.ledger", "deck.ledger.lock"]);
    works_again(&desk, 8, false);
}

// Left over are files of this ledger only: whatever else is there belongs to somebody.
#[test]
fn what_is_left_over_is_removed() {
    let desk = Desk::with("left_over", &ledger(8, false));
    let directory = desk.path.parent().expect("a directory");
    let others = ["deck.ledger.tmp", "deck.ledger.0123456789ABCDEF.tmp", "a.0123456789abcdef.tmp"];
    let halves = ["deck.ledger.0123456789abcdef.tmp", "deck.ledger.ffffffffffffffff.tmp"];
    for name in others.into_iter().chain(halves) {
        fs::write(directory.join(name), &ledger(9, true).bytes()[..50]).expect("a file");
    }
    // A refusal alters nothing, not even this.
    assert_eq!(desk.run(&change("7", false)).status, Some(2));
    assert_eq!(left_over(&desk).len(), 5);
    assert_eq!(desk.run(&change("8", false)).status, Some(0));
    assert_eq!(desk.bytes(), ledger(9, true).bytes());
    for name in others {
        fs::remove_file(directory.join(name)).expect("it is still there");
    }
    assert_eq!(desk.files(), ["deck.ledger", "deck.ledger.lock"]);
}

// Who is killed has no lock any more, and who waits for it gets it.
#[test]
fn the_lock_of_the_dead() {
    let desk = Desk::with("dead", &ledger(8, false));
    let lock = desk.path.with_extension("ledger.lock");
    let file = fs::File::create(&lock).expect("a lock");
    file.lock().expect("the lock");
    let start = |edition| {
        let mut command = desk.command(&change(edition, false));
        command.stdout(Stdio::null()).stderr(Stdio::null()).spawn().expect("the program runs")
    };
    // Both wait, and nothing is changed.
    let (mut killed, mut served) = (start("8"), start("8"));
    sleep(Duration::from_millis(100));
    assert_eq!(killed.try_wait().expect("a child"), None);
    assert_eq!(served.try_wait().expect("a child"), None);
    assert_eq!(desk.edition(), 8);
    killed.kill().expect("it still waits");
    killed.wait().expect("it ends");
    drop(file);
    assert_eq!(served.wait().expect("it ends").code(), Some(0));
    works_again(&desk, 9, true);
}
