//! The finder of the second program against the words of document 01, with its judge as the one
//! that says what passes: every order of a few bands, and the placing rule done slowly.

use second::{find, judge, Reply};
use tables::{bands, every_order, find_case, FindCase};

/// Most bands whose every order is judged.
const FEW: usize = 6;
/// Most bands that are placed by the slow rule.
const SOME: usize = 20;
/// How often each of found and no order must have come up.
const ENOUGH: u32 = 1_000;

/// The rows of some bands, one band after the other.
type Bands = Vec<Vec<u32>>;

/// Asks for an order of each made-up table with at most so many bands, if it is good, and gives
/// the case, its bands, the reply and the lent list to `check`.
fn each_found(cases: u64, most: usize, check: fn(&FindCase, Bands, Reply, &[u32])) {
    let (mut found, mut none) = (0, 0);
    for case in (0..cases).map(find_case) {
        let mut order = case.order.clone();
        let reply = find(&case.table, &mut order);
        let count = match reply {
            Reply::Found(_) => &mut found,
            Reply::NoOrder { .. } => &mut none,
            _ => continue,
        };
        let bands = bands(&case.table);
        if bands.len() <= most {
            *count += 1;
            check(&case, bands, reply, &order);
        }
    }
    println!("{found} tables with an order and {none} without");
    assert!(found >= ENOUGH && none >= ENOUGH, "too few tables of at most {most} bands");
}

/// The judge's reply on this order, and the figures by row.
fn judged(table: &[u32], order: &[u32]) -> (Reply, Vec<u32>) {
    let mut figures = vec![0; order.len()];
    let reply = judge(table, order, &mut figures);
    (reply, figures)
}

// A band that passes at a place passes at each higher one too, so no choice of the rule shuts an
// order out: of all orders that pass, its own comes first when they are counted out from the
// lowest place up.
#[test]
fn no_order_exactly_when_none_passes() {
    each_found(20_000, FEW, |case, bands, reply, order| {
        let passes = |order: &Vec<u32>| judged(&case.table, order).0 == Reply::Passed;
        let first = every_order(&bands).into_iter().find(passes);
        assert_eq!(matches!(reply, Reply::Found(_)), first.is_some(), "{case}");
        let rows = bands.concat().len();
        assert_eq!(order[..rows], first.unwrap_or(case.order[..rows].to_vec()), "{case}");
    });
}

#[test]
fn the_rule_place_by_place() {
    each_found(20_000, SOME, |case, bands, reply, order| {
        let (unplaced, placed) = placed_slowly(&case.table, bands);
        let tried = counted_afterwards(&unplaced, &placed);
        let mut expected = case.order.clone();
        let expected_reply = if unplaced.is_empty() {
            let found = placed.concat();
            expected[..found.len()].copy_from_slice(&found);
            Reply::Found(tried)
        } else {
            Reply::NoOrder { unplaced: unplaced.len() as u32, tried }
        };
        assert_eq!((reply, order), (expected_reply, &expected[..]), "{case}");
    });
}

/// The bands that get no place, and the others from the highest place down. Every band left is
/// judged at every place, in a whole order in which the others left stand above it.
fn placed_slowly(table: &[u32], mut unplaced: Bands) -> (Bands, Bands) {
    let mut placed = Bands::new();
    loop {
        let passes = |band: &Vec<u32>| {
            let mut order: Bands =
                unplaced.iter().filter(|other| *other != band).cloned().collect();
            order.reverse();
            order.push(band.clone());
            order.extend(placed.clone());
            judged(table, &order.concat()).1[band[0] as usize] != 0
        };
        let passing: Vec<bool> = unplaced.iter().map(passes).collect();
        match passing.iter().position(|&passes| passes) {
            Some(first) => placed.insert(0, unplaced.remove(first)),
            None => return (unplaced, placed),
        }
    }
}

/// How many bands were tried: for each placed band itself and the bands listed before it that
/// stand above it or got no place, and then all those that got none.
fn counted_afterwards(unplaced: &Bands, placed: &Bands) -> u32 {
    let mut tried = unplaced.len();
    for (place, band) in placed.iter().enumerate() {
        let above = unplaced.iter().chain(&placed[..place]);
        tried += 1 + above.filter(|other| other[0] < band[0]).count();
    }
    tried as u32
}
