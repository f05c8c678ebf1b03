//! Several at the desk at once: of those who saw the same edition one is served, and nothing that
//! was granted is lost.

mod common;

use std::process::{Child, Stdio};
use std::thread;

use common::desk::{claim, Desk, Ledger, CELLS, SMALL, WORDS};
use common::json::{self, Json};
use common::said;
use tables::Prng;

const ROUNDS: u32 = 40;
/// How many work at the desk at once, and how many changes each of them wants.
const OFFICERS: u64 = 4;
const CHANGES: u32 = 15;

fn start(desk: &Desk, name: &str, edition: &str) -> Child {
    let mut command = desk.command(&claim(name, CELLS, edition));
    let command = command.arg("--json").stdout(Stdio::piped()).stderr(Stdio::piped());
    command.spawn().expect("the program runs")
}

/// The object that it says, and its exit status.
fn end(child: Child) -> (Json, Option<i32>) {
    let said = said(child.wait_with_output().expect("the program ends"));
    assert_eq!(said.err, "");
    (json::read(&said.out), said.status)
}

#[test]
fn two_for_the_last_room() {
    let desk = Desk::with("race", &Ledger::of(1, &["Rudder"], WORDS));
    let mut edition = 1;
    let mut first = 0;
    for round in 0..ROUNDS {
        let sent = edition.to_string();
        let both = ["North", "South"];
        // Who is started first has no right to it.
        let order = if round % 2 == 0 { both } else { [both[1], both[0]] };
        let started = order.map(|name| start(&desk, name, &sent));
        let ended = started.map(end);
        let statuses = [ended[0].1, ended[1].1];
        let granted = statuses.iter().position(|status| *status == Some(0)).expect("one is served");
        let (winner, (loser, status)) = (&ended[granted].0, &ended[1 - granted]);
        assert_eq!(winner.get("verdict").text(), "granted");
        assert_eq!(winner.get("name").text(), order[granted]);
        assert_eq!((loser.get("number").whole(), *status), (Some(10), Some(2)), "{loser:?}");
        for object in [winner, loser] {
            assert_eq!(object.get("edition").whole(), Some(edition + 1));
        }
        let held = Ledger::of(edition + 1, &["Rudder", order[granted]], WORDS);
        assert_eq!(desk.bytes(), held.bytes(), "round {round}");
        let back = ["withdraw", order[granted], "--edition", &held.edition.to_string()];
        assert_eq!(desk.run(&back).status, Some(0));
        edition += 2;
        first += u32::from(granted == 0);
    }
    println!("{ROUNDS} rounds: {first} times the one that was started first was served");
    assert_eq!(desk.files(), ["deck.ledger", "deck.ledger.lock"]);
}

/// What one officer did.
#[derive(Default)]
struct Day {
    done: u32,
    refused: u32,
    /// The messages that are held at the end.
    held: Vec<String>,
}

/// Claims and withdraws until so many changes are made, at times with an edition that is old.
fn day(desk: &Desk, officer: u64) -> Day {
    let mut prng = Prng::new(officer);
    let mut day = Day::default();
    while day.done < CHANGES {
        let age = if prng.chance(20) { prng.between(1, 3) } else { 0 };
        let seen = desk.edition();
        let edition = seen.saturating_sub(age).to_string();
        let gives_back = !day.held.is_empty() && prng.chance(40);
        let name = match gives_back {
            true => day.held[0].clone(),
            false => format!("{officer}.{}", day.done),
        };
        let (object, status) = match gives_back {
            true => desk.json(&["withdraw", &name, "--edition", &edition]),
            false => desk.json(&claim(&name, SMALL, &edition)),
        };
        match (object.get("verdict").text(), status) {
            ("granted" | "withdrawn", Some(0)) => {
                assert!(age == 0 || seen < age, "an old edition was served");
                day.done += 1;
                match gives_back {
                    true => drop(day.held.remove(0)),
                    false => day.held.push(name),
                }
            }
            ("refused", Some(2)) => {
                assert_eq!(object.get("number").whole(), Some(10), "{object:?}");
                day.refused += 1;
            }
            _ => panic!("{object:?}"),
        }
        assert!(object.get("edition").whole() >= Some(seen), "an edition is never taken back");
    }
    day
}

#[test]
fn nothing_granted_is_lost() {
    let desk = Desk::with("officers", &Ledger::default());
    let days: Vec<Day> = thread::scope(|scope| {
        let desk = &desk;
        let started: Vec<_> =
            (0..OFFICERS).map(|officer| scope.spawn(move || day(desk, officer))).collect();
        started.into_iter().map(|officer| officer.join().expect("a day's work")).collect()
    });
    let done: u32 = days.iter().map(|day| day.done).sum();
    let refused: u32 = days.iter().map(|day| day.refused).sum();
    println!("{done} changes, and {refused} refused for an old edition");
    assert_eq!((desk.edition(), done), (done, CHANGES * OFFICERS as u32));
    let (shown, _) = desk.json(&["show"]);
    let messages = shown.get("messages").items().iter();
    let mut names: Vec<&str> = messages.map(|message| message.get("name").text()).collect();
    let mut held: Vec<&str> = days.iter().flat_map(|day| &day.held).map(String::as_str).collect();
    names.sort_unstable();
    held.sort_unstable();
    assert_eq!(names, held);
    assert_eq!(desk.files(), ["deck.ledger", "deck.ledger.lock"]);
}
