//! The ledger of a desk: the rows that were granted, and how often it has changed.

use crate::ffi;

/// The words of a row.
const ROW: usize = 6;

/// What a desk keeps between two calls: the granted rows in their order, and its edition.
///
/// It is lent to the library as it stands, so its parts lie as the C header says.
#[repr(C)]
#[derive(Debug, Clone, PartialEq, Eq)]
pub struct Ledger {
    /// The held rows, six words each, from place 0 on; what stands behind them means nothing.
    pub words: [u32; 384],
    /// How many rows are held, at most 64.
    pub held: u32,
    /// How often the ledger has changed.
    pub edition: u32,
}

impl Ledger {
    /// A ledger of edition 0 that holds no row; every word is 0.
    pub fn fresh() -> Ledger {
        ffi::ledger_fresh()
    }

    /// The words of the held rows; if more are said to be held than there can be, all words.
    pub fn rows(&self) -> &[u32] {
        let words = (self.held as usize).saturating_mul(ROW);
        self.words.get(..words).unwrap_or(&self.words)
    }
}

#[cfg(test)]
mod tests {
    use std::mem::{align_of, offset_of, size_of};

    use super::Ledger;

    // The C interface: 384 words and two more, with nothing between them.
    #[test]
    fn the_parts_lie_as_in_c() {
        assert_eq!((size_of::<Ledger>(), align_of::<Ledger>()), (1544, 4));
        assert_eq!(offset_of!(Ledger, words), 0);
        assert_eq!(offset_of!(Ledger, held), 1536);
        assert_eq!(offset_of!(Ledger, edition), 1540);
    }

    #[test]
    fn fresh() {
        let fresh = Ledger::fresh();
        assert_eq!((fresh.held, fresh.edition), (0, 0));
        assert!(fresh.rows().is_empty() && fresh.words.iter().all(|&word| word == 0));
    }

    #[test]
    fn rows() {
        let words = std::array::from_fn(|place| place as u32);
        let rows = |held| Ledger { words, held, edition: 7 }.rows().len();
        assert_eq!([0, 1, 63, 64, 65, u32::MAX].map(rows), [0, 6, 378, 384, 384, 384]);
        assert_eq!(Ledger { words, held: 1, edition: 7 }.rows(), [0, 1, 2, 3, 4, 5]);
    }
}
