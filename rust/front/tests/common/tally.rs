//! How often each kind of answer came up.

use std::collections::BTreeMap;

/// The least number of times that is enough to say that a kind came up.
const ENOUGH: u32 = 30;

/// Kinds, and how often each was seen.
#[derive(Default)]
pub struct Tally(BTreeMap<String, u32>);

impl Tally {
    pub fn count(&mut self, kind: impl Into<String>) {
        *self.0.entry(kind.into()).or_default() += 1;
    }

    /// Prints the tally; each of these kinds must have come up.
    #[track_caller]
    pub fn expect(&self, what: &str, kinds: &[&str]) {
        println!("{what}:");
        for (kind, times) in &self.0 {
            println!("  {kind:11} {times:6}");
        }
        let missing = kinds.iter().find(|kind| self.0.get(**kind) < Some(&ENOUGH));
        assert_eq!(missing, None, "{:?}", self.0);
    }
}
