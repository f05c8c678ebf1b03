//! What the comparisons rely on in a made-up case.

use std::collections::BTreeSet;

use tables::{book_of, case, every_order, find_case, history, read_case, write_case};

// A seed that a failed comparison prints makes the same case again.
#[test]
fn same_seed_same_case() {
    assert!((0..1_000).all(|seed| case(seed) == case(seed)));
    assert!((0..1_000).all(|seed| find_case(seed) == find_case(seed)));
    assert!((0..1_000).all(|seed| read_case(seed) == read_case(seed)));
    assert!((0..1_000).all(|seed| write_case(seed) == write_case(seed)));
    assert!((0..1_000).all(|seed| history(seed) == history(seed)));
}

// A figure is at most 1,000,000: a lent word that was left alone can be told from one written.
#[test]
fn lent_words_are_above_any_figure() {
    assert!((0..1_000).flat_map(|seed| case(seed).figures).all(|word| word > 1_000_000));
    assert!((0..1_000).flat_map(|seed| find_case(seed).order).all(|word| word > 1_000_000));
}

// Three bands have six orders; the lowest place is the last to change.
#[test]
fn every_order_from_the_lowest_place_up() {
    let bands = [vec![0, 2], vec![1], vec![3]];
    let expected =
        [[3, 1, 0, 2], [1, 3, 0, 2], [3, 0, 2, 1], [0, 2, 3, 1], [1, 0, 2, 3], [0, 2, 1, 3]];
    assert_eq!(every_order(&bands), expected);
    let six: Vec<Vec<u32>> = (0..6).map(|row| vec![row]).collect();
    assert_eq!(every_order(&six).into_iter().collect::<BTreeSet<_>>().len(), 720);
}

// Request L1: two rows start at 2 + 2 * 4 = 10 and at 34; the contents are high byte first, the
// words low byte first.
#[test]
fn the_book_of_two_rows() {
    let words = [1, 2, 3, 4, 5, 6, 0x0102_0304, 8, 9, 10, 11, u32::MAX];
    #[rustfmt::skip]
    let book = [
        0, 2,  0, 0, 0, 10,  0, 0, 0, 34,
        1, 0, 0, 0,  2, 0, 0, 0,  3, 0, 0, 0,  4, 0, 0, 0,   5, 0, 0, 0,  6, 0, 0, 0,
        4, 3, 2, 1,  8, 0, 0, 0,  9, 0, 0, 0,  10, 0, 0, 0,  11, 0, 0, 0,  255, 255, 255, 255,
    ];
    assert_eq!(book_of(&words), book);
}
