//! The search of the second program against the definition itself: 'w is the least whole number
//! with F(w) = w', looked for by trying 0, 1, 2 and so on.

use second::{judge, Reply};

/// Most values of w tried in one case, over all its rows.
const TRIES: u64 = 20_000;
/// Cases that must have been small enough to try.
const ENOUGH: u32 = 2_000;

/// The figure of the row at `place`, by the words of document 01 and, for its length, of request
/// L2; `None` if it is late.
fn figure(table: &[u32], order: &[u32], place: usize) -> Option<u64> {
    let field = |row: u32, field: usize| u64::from(table[6 * row as usize + field - 1]);
    let length = |row: u32| {
        let (g, s) = (if field(row, 2) == 1 { 34 } else { 54 }, field(row, 3));
        if field(row, 2) == 0 {
            s
        } else {
            g + 8 * s + 13 + (g + 8 * s - 1) / 4
        }
    };
    let own = order[place];
    let same_band =
        |&&row: &&u32| row == own || field(own, 1) != 0 && field(row, 1) == field(own, 1);
    let band: Vec<u32> = order.iter().filter(same_band).copied().collect();
    let above: Vec<u32> = order.iter().take_while(|row| !same_band(row)).copied().collect();
    let below = order.iter().rev().take_while(|row| !same_band(row));

    let b = below.map(|&row| length(row)).max().unwrap_or(0);
    let sum: u64 = band.iter().map(|&row| length(row)).sum();
    let max = band.iter().map(|&row| length(row)).max()?;
    let min = band.iter().map(|&row| length(row)).min()?;
    let e = band.iter().map(|&row| field(row, 5) - field(row, 6)).min()?;
    let quotient = |w: u64, k: u32| (w + field(k, 6) + 1).div_ceil(field(k, 4));
    let f = |w: u64| {
        b.max(max) + sum - min + above.iter().map(|&k| length(k) * quotient(w, k)).sum::<u64>()
    };
    (0..=e).find(|&w| f(w) == w).map(|w| w + min).filter(|&r| r <= e)
}

#[test]
fn climbing_finds_the_least_w() {
    let mut tried = 0;
    for case in (0..40_000).map(tables::case) {
        let mut figures = case.figures.clone();
        let reply = judge(&case.table, &case.order, &mut figures);
        let values: u64 = case.table.iter().skip(4).step_by(6).map(|&d| u64::from(d)).sum();
        if !matches!(reply, Reply::Passed | Reply::Late(_)) || values > TRIES {
            continue;
        }
        tried += 1;
        let expected: Vec<Option<u64>> =
            (0..case.order.len()).map(|place| figure(&case.table, &case.order, place)).collect();
        let first_late = expected.iter().position(Option::is_none).map(|place| place as u32);
        assert_eq!(reply, first_late.map_or(Reply::Passed, Reply::Late), "{case}");
        for (&row, expected) in case.order.iter().zip(expected) {
            assert_eq!(u64::from(figures[row as usize]), expected.unwrap_or(0), "{case}");
        }
    }
    println!("{tried} cases tried by the definition");
    assert!(tried >= ENOUGH, "only {tried} cases were small enough");
}
