//! How long judging and finding take, on the same tables: the library beside the second program, as
//! it is and with the start that its search had before request L3; and, if its shared object is
//! named, beside an earlier library (docs/SPEED.md has how to make one).
//!
//!     cargo run --release --offline --example speed [EARLIER.so]

mod earlier;

use std::env;
use std::fmt::{Debug, Display};
use std::hint::black_box;
use std::time::{Duration, Instant};

use earlier::Earlier;
use second::{old_start, Reply};
use tables::{Case, Family, FindCase};
use telhavina::{Finding, Judgement, Refusal};

/// Tables in each family.
const TABLES: u64 = 40;
/// How long each of the two runs lasts.
const RUN: Duration = Duration::from_secs(20);

/// A reply by its number in the header, and what it carries, 0 where there is less.
type Answer = [u32; 3];

/// Those that are timed.
#[derive(Clone, Copy)]
enum Program {
    Library,
    Second,
    OldStart,
    Earlier(Earlier),
}

/// A question that every program is asked.
trait Question: Display + Sized {
    /// What stands above the columns of `counts`.
    const COUNTED: &'static str;

    fn ask(&self, program: Program, lent: &mut [u32]) -> Answer;

    /// What stands beforehand in the list lent for the answer.
    fn lent(&self) -> &[u32];

    /// How the questions of a family are answered.
    fn counts(answers: &[Answer]) -> String;
}

/// A family, with the quickest round of each program so far, in nanoseconds per question.
struct Measured<Q> {
    family: Family<Q>,
    counts: String,
    quickest: Vec<f64>,
}

fn main() {
    let mut programs = vec![Program::Library, Program::Second, Program::OldStart];
    programs.extend(env::args().nth(1).map(|path| Program::Earlier(Earlier::open(&path))));
    run("judging", tables::families(TABLES), &programs);
    println!();
    run("finding", tables::find_families(TABLES), &programs);
}

fn run<Q: Question>(what: &str, families: Vec<Family<Q>>, programs: &[Program]) {
    let new = |family| Measured::new(family, programs);
    let mut all: Vec<Measured<Q>> = families.into_iter().map(new).collect();
    let start = Instant::now();
    // Short rounds by turns, of all families over the whole run: what else the machine does then
    // falls on every program, and the quickest round of each is one that was left alone.
    while start.elapsed() < RUN {
        all.iter_mut().for_each(|measured| measured.round(programs));
    }
    let others = programs[1..].iter().map(|other| format!(" {:>12}    ratio", other.name()));
    println!("{what:12} {} {:>12}{}", Q::COUNTED, programs[0].name(), others.collect::<String>());
    all.iter().for_each(Measured::print);
}

impl Program {
    fn name(self) -> &'static str {
        match self {
            Program::Library => "library",
            Program::Second => "second",
            Program::OldStart => "old start",
            Program::Earlier(_) => "earlier",
        }
    }
}

impl<Q: Question> Measured<Q> {
    /// Not measured yet, but all programs agree on all its tables.
    fn new(family: Family<Q>, programs: &[Program]) -> Measured<Q> {
        let answers: Vec<Answer> =
            family.cases.iter().map(|question| agreed(question, programs)).collect();
        let counts = Q::counts(&answers);
        Measured { family, counts, quickest: vec![f64::INFINITY; programs.len()] }
    }

    fn round(&mut self, programs: &[Program]) {
        // Twice: the program that comes first also has to fetch the tables into the cache.
        for _ in 0..2 {
            for (&program, quickest) in programs.iter().zip(&mut self.quickest) {
                *quickest = quickest.min(ns_per_question(&self.family.cases, program));
            }
        }
    }

    /// The library's time, and each other program's with the ratio of the library's to it.
    fn print(&self) {
        let Measured { family, counts, quickest } = self;
        let (name, library) = (family.name, quickest[0]);
        let others =
            quickest[1..].iter().map(|other| format!(" {other:12.0} {:8.3}", library / other));
        println!("{name:12} {counts} {library:12.0}{}", others.collect::<String>());
    }
}

/// The answer to a question, on which every program must agree, and on every lent word.
fn agreed<Q: Question>(question: &Q, programs: &[Program]) -> Answer {
    let answered = |program: Program| {
        let mut lent = question.lent().to_vec();
        (question.ask(program, &mut lent), lent)
    };
    let library = answered(programs[0]);
    for &other in &programs[1..] {
        assert_eq!(library, answered(other), "library and {}, on\n{question}", other.name());
    }
    library.0
}

/// Nanoseconds per question, each asked once.
fn ns_per_question<Q: Question>(questions: &[Q], program: Program) -> f64 {
    let mut lent = [0; 64];
    let start = Instant::now();
    for question in questions {
        black_box(black_box(question).ask(program, black_box(&mut lent)));
    }
    start.elapsed().as_nanos() as f64 / questions.len() as f64
}

impl Question for Case {
    const COUNTED: &'static str = "passed   late";

    fn ask(&self, program: Program, figures: &mut [u32]) -> Answer {
        let (table, order) = (&self.table, &self.order);
        match program {
            Program::Library => match telhavina::judge(table, order, figures) {
                Judgement::Passed => [100, 0, 0],
                Judgement::Late { place } => [101, place as u32, 0],
                Judgement::Refused(refusal) => refused(self, refusal),
            },
            Program::Second => by_number(self, second::judge(table, order, figures)),
            Program::OldStart => by_number(self, old_start::judge(table, order, figures)),
            Program::Earlier(earlier) => earlier.judge(table, order, figures),
        }
    }

    fn lent(&self) -> &[u32] {
        &self.figures
    }

    fn counts(answers: &[Answer]) -> String {
        let passed = answers.iter().filter(|answer| answer[0] == 100).count();
        format!("{passed:6} {:6}", answers.len() - passed)
    }
}

impl Question for FindCase {
    const COUNTED: &'static str = " found   none  tried";

    fn ask(&self, program: Program, order: &mut [u32]) -> Answer {
        let table = &self.table;
        match program {
            Program::Library => match telhavina::find(table, order) {
                Finding::Found { tried } => [102, tried as u32, 0],
                Finding::Refused(Refusal::NoOrder { unplaced, tried }) => {
                    [8, unplaced as u32, tried as u32]
                }
                Finding::Refused(refusal) => refused(self, refusal),
            },
            Program::Second => by_number(self, second::find(table, order)),
            Program::OldStart => by_number(self, old_start::find(table, order)),
            Program::Earlier(earlier) => earlier.find(table, order),
        }
    }

    fn lent(&self) -> &[u32] {
        &self.order
    }

    fn counts(answers: &[Answer]) -> String {
        let found = answers.iter().filter(|answer| answer[0] == 102).count();
        let tried = |answer: &Answer| if answer[0] == 102 { answer[1] } else { answer[2] };
        let tried = answers.iter().map(tried).sum::<u32>() / answers.len() as u32;
        format!("{found:6} {:6} {tried:6}", answers.len() - found)
    }
}

/// The second program's reply to a question.
fn by_number(question: &impl Question, reply: Reply) -> Answer {
    match reply {
        Reply::Passed => [100, 0, 0],
        Reply::Late(place) => [101, place, 0],
        Reply::Found(tried) => [102, tried, 0],
        Reply::NoOrder { unplaced, tried } => [8, unplaced, tried],
        refusal => refused(question, refusal),
    }
}

/// Every question of the benchmark can be answered.
fn refused(question: &impl Question, refusal: impl Debug) -> Answer {
    panic!("a question of the benchmark was refused: {refusal:?}\n{question}")
}
