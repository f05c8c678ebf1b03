//! Thousands of made-up files, good ones and damaged ones: none makes the front panic, and for each
//! that can be read the answer is what the library gives for its words.

mod common;

use std::panic::{catch_unwind, AssertUnwindSafe};

use common::json::{self, Json};
use common::made_up::{csv, damage};
use common::tally::Tally;
use common::HEADER;
use front::answer::{self, Answer, Verdict};
use front::fault::Fault;
use front::json as to_json;
use front::load::Source;
use front::report::Report;
use front::table::{self, Table};
use tables::Prng;
use telhavina::{Finding, Judgement, Refusal};

const FILES: u64 = 6_000;

/// The answer on these bytes, to the question of an order or of that of the file.
fn ask(bytes: &[u8], find: bool) -> Result<(Table, Answer), Fault> {
    let table = table::read(bytes)?;
    let answer = if find { answer::find(&table) } else { answer::judge(&table, None) }?;
    Ok((table, answer))
}

/// What is said is what the library says of the words, also in figures.
fn check_judged(table: &Table, answer: &Answer) {
    let words = table.words();
    let rows: Vec<u32> = answer.judged.iter().map(|judged| judged.row).collect();
    let mut figures = vec![0; table.messages.len()];
    let judgement = telhavina::judge(&words, &rows, &mut figures);
    match (answer.verdict, judgement) {
        (Verdict::Passed | Verdict::Found { .. }, Judgement::Passed) => (),
        (Verdict::Late { place }, Judgement::Late { place: other }) => assert_eq!(place, other),
        other => panic!("{other:?}"),
    }
    for judged in &answer.judged {
        assert_eq!(judged.figure.unwrap_or(0), figures[judged.row as usize]);
        let queue = words[6 * judged.row as usize];
        let all = words.chunks(6).zip(0..);
        let band = all.filter(|(row, at)| *at == judged.row || queue > 0 && row[0] == queue);
        assert_eq!(Some(judged.allowed), band.map(|(row, _)| row[4] - row[5]).min());
        assert_eq!(judged.slack(), judged.figure.map(|figure| judged.allowed - figure));
    }
}

/// The fault is the library's refusal of these words, and stands on the line of the row.
fn check_refused(bytes: &[u8], fault: &Fault, find: bool) {
    let Ok(table) = table::read(bytes) else { return assert_eq!(fault.number, None) };
    let n = table.messages.len();
    let mut lent = vec![0; n];
    let order: Vec<u32> = (0..n as u32).collect();
    let refusal = match find {
        true => match telhavina::find(&table.words(), &mut lent) {
            Finding::Refused(refusal) => refusal,
            other => panic!("{other:?}"),
        },
        false => match telhavina::judge(&table.words(), &order, &mut lent) {
            Judgement::Refused(refusal) => refusal,
            other => panic!("{other:?}"),
        },
    };
    assert_eq!(fault.number, Some(refusal.number()));
    if let Refusal::BadRow { row, .. } = refusal {
        assert_eq!(fault.line, table.messages[row].line);
        assert!(fault.line.is_some() && fault.column.is_some());
    }
}

/// What would be printed: a line for each message, or one on what to do where there is no order;
/// and JSON that holds the same names.
fn check_shown(table: &Table, answer: &Answer) {
    let text = Report { file: &Source::Input, table, answer }.to_string();
    assert_eq!(text.lines().filter(|line| line.starts_with('!')).count(), answer.late());
    let rows = if answer.judged.is_empty() { 1 } else { answer.judged.len() + 1 };
    assert_eq!(text.lines().count(), rows + 2);
    let object = json::read(&to_json::answer("made up", table, answer));
    let shown = object.find("messages").map(Json::items).unwrap_or(&[]);
    assert_eq!(shown.len(), answer.judged.len());
    for (shown, judged) in shown.iter().zip(&answer.judged) {
        assert_eq!(shown.get("name").text(), table.messages[judged.row as usize].name);
        assert_eq!(shown.get("figure").whole(), judged.figure);
    }
    if let Some(Json::Text(order)) = object.find("order") {
        let again = answer::judge(table, Some(order)).expect("the order can be read again");
        assert_eq!(again.judged, answer.judged, "{order}");
    }
}

fn check(bytes: &[u8], find: bool) -> String {
    match ask(bytes, find) {
        Ok((table, answer)) => {
            match answer.verdict {
                Verdict::NoOrder { unplaced, tried } => {
                    let refusal = Refusal::NoOrder { unplaced, tried };
                    let mut order = vec![0; table.messages.len()];
                    let finding = telhavina::find(&table.words(), &mut order);
                    assert_eq!(finding, Finding::Refused(refusal));
                }
                _ => check_judged(&table, &answer),
            }
            check_shown(&table, &answer);
            let verdict = format!("{:?}", answer.verdict);
            verdict.split(' ').next().unwrap_or_default().to_string()
        }
        Err(fault) => {
            check_refused(bytes, &fault, find);
            json::read(&to_json::fault("made up", &fault));
            match fault.number {
                Some(number) => format!("refusal {number}"),
                None => "unreadable".to_string(),
            }
        }
    }
}

#[test]
fn damaged_files() {
    let mut tally = Tally::default();
    for seed in 0..FILES {
        let case = tables::case(seed);
        let mut prng = Prng::new(seed);
        let text = csv(&case.table, &mut prng).unwrap_or_else(|| HEADER.to_string());
        let mut bytes = text.into_bytes();
        damage(&mut bytes, &mut prng);
        for find in [false, true] {
            let checked = catch_unwind(AssertUnwindSafe(|| check(&bytes, find)));
            let Ok(kind) = checked else {
                panic!("seed {seed}, find {find}:\n{}", String::from_utf8_lossy(&bytes))
            };
            tally.count(kind);
        }
    }
    let kinds = ["Passed", "Late", "Found", "NoOrder", "refusal 3", "refusal 7", "unreadable"];
    tally.expect("damaged files", &kinds);
}

// Whatever words can be written in a file, they are those that are read from it, and the order too.
#[test]
fn the_words_come_through() {
    let mut tally = Tally::default();
    for seed in 0..FILES {
        let case = tables::case(seed);
        let mut prng = Prng::new(seed);
        let Some(text) = csv(&case.table, &mut prng) else { continue };
        let table = table::read(text.as_bytes()).expect("a table");
        assert_eq!(table.words(), case.table, "seed {seed}:\n{text}");
        let order: Vec<String> =
            case.order.iter().map(|&row| entry(&table, row, &mut prng)).collect();
        let answer = answer::judge(&table, Some(&order.join(" , ")));
        let mut figures = vec![0; table.messages.len()];
        let kind = match telhavina::judge(&case.table, &case.order, &mut figures) {
            Judgement::Refused(refusal) => {
                assert_eq!(answer.map_err(|fault| fault.number), Err(Some(refusal.number())));
                format!("refusal {}", refusal.number())
            }
            judgement => {
                let answer = answer.unwrap_or_else(|fault| panic!("seed {seed}: {fault}\n{text}"));
                for judged in &answer.judged {
                    assert_eq!(judged.figure.unwrap_or(0), figures[judged.row as usize]);
                }
                check_judged(&table, &answer);
                check_shown(&table, &answer);
                format!("good {}", judgement == Judgement::Passed)
            }
        };
        tally.count(kind);
    }
    let kinds = ["good true", "good false", "refusal 2", "refusal 3", "refusal 5", "refusal 6"];
    tally.expect("files that hold a table", &kinds);
}

/// An entry for this row: its number or, if there is such a row, its name.
fn entry(table: &Table, row: u32, prng: &mut Prng) -> String {
    match table.messages.get(row as usize) {
        Some(message) if prng.chance(50) => message.name.clone(),
        _ => row.to_string(),
    }
}

// Orders of any text at all.
#[test]
fn damaged_orders() {
    let table = table::read(
        format!(
            "{HEADER}A,priority,std 8,1000,1000,0\n1,fifo 1,std 8,1000,1000,0\n\
             0,fifo 1,std 8,1000,1000,0\nKühlraum,priority,std 8,1000,1000,0\n"
        )
        .as_bytes(),
    )
    .expect("a table");
    let mut tally = Tally::default();
    for seed in 0..FILES {
        let mut prng = Prng::new(seed);
        let mut entries = ["A", "01", "02", "3"];
        prng.shuffle(&mut entries);
        let odd = ["A", "1", "0", "Kühlraum", "3", "2", "001", "4", " ", "x", "-", "\0", "9", "a"];
        for _ in 0..prng.below(3) {
            entries[prng.below(4)] = prng.pick(&odd);
        }
        let entries = &entries[..if prng.chance(80) { 4 } else { prng.below(4) }];
        let order = entries.join(prng.pick(&[",", ",", ",", " , ", ",,", ";"]));
        let kind = match answer::judge(&table, Some(&order)) {
            Ok(answer) => {
                check_judged(&table, &answer);
                "good".to_string()
            }
            Err(Fault { number: Some(number), .. }) => format!("refusal {number}"),
            Err(fault) => {
                assert!(fault.message.starts_with("ORDER "), "{fault}");
                "unreadable".to_string()
            }
        };
        tally.count(kind);
    }
    let kinds = ["good", "refusal 5", "refusal 6", "refusal 7", "unreadable"];
    tally.expect("orders", &kinds);
}
