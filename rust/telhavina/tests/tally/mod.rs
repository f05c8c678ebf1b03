//! How often each kind of reply, or of table, came up.

use std::collections::BTreeMap;

/// How often each kind came up.
#[derive(Debug, Default, PartialEq, Eq)]
pub struct Tally(BTreeMap<&'static str, u32>);

impl Tally {
    pub fn count(&mut self, kind: &'static str) {
        *self.0.entry(kind).or_default() += 1;
    }

    pub fn print(&self, what: &str) {
        println!("{what}:");
        for (kind, times) in &self.0 {
            println!("  {kind:22} {times:6}");
        }
    }

    /// So many kinds came up, each at least so often.
    #[track_caller]
    pub fn has(&self, kinds: usize, least: u32) {
        assert_eq!(self.0.len(), kinds, "some kind never came up");
        assert!(self.0.values().all(|&times| times >= least), "some kind was rare");
    }
}

/// Each of these kinds came up just so often, for a comparison where that can be said beforehand.
impl<const KINDS: usize> From<[(&'static str, u32); KINDS]> for Tally {
    fn from(kinds: [(&'static str, u32); KINDS]) -> Tally {
        Tally(kinds.into())
    }
}
