//! How long it takes to read and to write a book of 64 rows: the library beside the second program.
//!
//!     cargo run --release --offline --example book_speed

use std::hint::black_box;
use std::time::{Duration, Instant};

use telhavina::{read_book, write_book, Reading, Writing};

/// Six words a row.
const WORDS: usize = 6 * 64;
/// Two bytes, and 28 a row.
const BYTES: usize = 2 + 28 * 64;
/// Books in a round, so that the clock's own time does not count.
const ROUND: u32 = 1_000;
/// How long the whole run lasts.
const RUN: Duration = Duration::from_secs(4);

fn main() {
    let words: [u32; WORDS] = std::array::from_fn(|word| (word as u32).wrapping_mul(0x9E37_79B9));
    let (mut book, mut lent) = ([0; BYTES], [0; WORDS]);
    assert_eq!(write_book(&words, &mut book), Writing::Written { bytes: BYTES });
    assert_eq!(read_book(&book, &mut lent), Reading::Read { rows: 64 });
    assert_eq!(lent, words);

    let mut quickest = [f64::INFINITY; 4];
    let start = Instant::now();
    // Short rounds by turns, as for judging: the quickest of each is one that was left alone.
    while start.elapsed() < RUN {
        let rounds = [
            round(|| keep(read_book(black_box(&book), black_box(&mut lent)))),
            round(|| keep(second::read_book(black_box(&book), black_box(&mut lent)))),
            round(|| keep(write_book(black_box(&words), black_box(&mut book)))),
            round(|| keep(second::write_book(black_box(&words), black_box(&mut book)))),
        ];
        quickest = std::array::from_fn(|at| quickest[at].min(rounds[at]));
    }
    let [read, second_read, write, second_write] = quickest;
    println!("           library ns    second ns    ratio");
    println!("reading  {read:12.0} {second_read:12.0} {:8.3}", read / second_read);
    println!("writing  {write:12.0} {second_write:12.0} {:8.3}", write / second_write);
}

/// Nanoseconds a book.
fn round(mut ask: impl FnMut()) -> f64 {
    let start = Instant::now();
    for _ in 0..ROUND {
        ask();
    }
    start.elapsed().as_nanos() as f64 / f64::from(ROUND)
}

/// What is answered does not matter, but it has to be worked out.
fn keep<T>(answer: T) {
    black_box(answer);
}
