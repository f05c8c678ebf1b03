//! Rows of document 01, and what both kinds of question lend.

/// What a lent word holds before the call; no figure or row number is as great.
pub const LENT: u32 = 0xC0DE_C0DE;
/// Places in the lent list past those that the rows need.
pub const SPARE: usize = 3;

/// A row as document 01 writes it: (queue, C, T, D, J), form 0.
pub type Short = (u32, u32, u32, u32, u32);

pub const A: [Short; 4] = [
    (0, 125, 1000, 750, 0),
    (0, 125, 1000, 350, 0),
    (0, 125, 1000, 750, 0),
    (0, 75, 1000, 1000, 0),
];
pub const C: [Short; 3] = [(1, 100, 1000, 1000, 0), (1, 60, 1000, 600, 0), (0, 80, 500, 500, 0)];
/// A good row, for tables where something else is wrong.
pub const GOOD: [u32; 6] = [0, 0, 10, 100, 100, 0];

pub fn words(rows: &[Short]) -> Vec<u32> {
    rows.iter().flat_map(|&(queue, c, t, d, j)| [queue, 0, c, t, d, j]).collect()
}
