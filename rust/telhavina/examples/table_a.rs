//! Judges an order of table a of the published document, then finds one, and prints both as a
//! person reads them: highest priority first, with each message's figure and the time it is
//! allowed.

use telhavina::{find, judge, Finding, Judgement};

const NAMES: [&str; 4] = ["A", "F", "B", "C"];
const TABLE: [u32; 24] = [
    0, 0, 125, 1000, 750, 0, // A
    0, 0, 125, 1000, 350, 0, // F
    0, 0, 125, 1000, 750, 0, // B
    0, 0, 75, 1000, 1000, 0, // C
];
const ORDER: [u32; 4] = [3, 1, 0, 2];

fn main() {
    println!("a given order");
    print_judged(ORDER);

    let mut order = [0; 4];
    match find(&TABLE, &mut order) {
        Finding::Found { tried } => {
            println!("\nthe order found, {tried} tried");
            print_judged(order);
        }
        Finding::Refused(refusal) => println!("\n{refusal}"),
    }
}

fn print_judged(order: [u32; 4]) {
    let mut figures = [0; 4];
    let judgement = judge(&TABLE, &order, &mut figures);
    println!("message  row  figure  allowed");
    for row in order.map(|row| row as usize) {
        let allowed = TABLE[row * 6 + 4] - TABLE[row * 6 + 5];
        println!("{:<7}  {row:>3}  {:>6}  {allowed:>7}", NAMES[row], figures[row]);
    }
    match judgement {
        Judgement::Passed => println!("passed"),
        Judgement::Late { place } => println!("late, first at place {place}"),
        Judgement::Refused(refusal) => println!("{refusal}"),
    }
}
