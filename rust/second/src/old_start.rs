//! The same program but for the start of its search for w, which is the one it had before request
//! L3: a second baseline to measure with.

use crate::sums::ConstantPart;
use crate::{found, judged, Reply};

/// Judges as [`judge`](crate::judge) does.
pub fn judge(table: &[u32], order: &[u32], figures: &mut [u32]) -> Reply {
    judged::<ConstantPart>(table, order, figures).unwrap_or_else(|refusal| refusal)
}

/// Finds as [`find`](crate::find) does.
pub fn find(table: &[u32], order: &mut [u32]) -> Reply {
    found::<ConstantPart>(table, order).unwrap_or_else(|refusal| refusal)
}
