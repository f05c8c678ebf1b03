//! What each field of a row allows, and the words at and around the ends of that.

/// The six words of a row: queue, form, size, period, deadline, jitter.
pub type Row = [u32; 6];

/// The greatest number of a FIFO.
pub(crate) const LAST_FIFO: u32 = 64;
/// The greatest size in form 0.
pub(crate) const MAX_BITS: u32 = 4_096;
/// The greatest size in forms 1 and 2.
pub(crate) const MAX_BYTES: u32 = 8;
/// The greatest period.
pub(crate) const MAX_PERIOD: u32 = 1_000_000;

const MAX: u32 = u32::MAX;
const QUEUES: [u32; 5] = [0, 1, LAST_FIFO, LAST_FIFO + 1, MAX];
const FORMS: [u32; 5] = [0, 1, 2, 3, MAX];
const SIZES: [u32; 7] = [0, 1, MAX_BYTES, MAX_BYTES + 1, MAX_BITS, MAX_BITS + 1, MAX];
const PERIODS: [u32; 6] = [0, 1, 2, MAX_PERIOD, MAX_PERIOD + 1, MAX];

/// The time a good row is allowed after queuing: its deadline less its jitter.
pub(crate) fn allowed(row: &Row) -> u32 {
    row[4] - row[5]
}

/// 0, 1, the words around `greatest`, and the greatest word of all.
fn around(greatest: u32) -> [u32; 6] {
    [0, 1, greatest.saturating_sub(1), greatest, greatest.saturating_add(1), MAX]
}

/// Every row that can be put together from words at and around the ends of the fields.
pub fn boundary_rows() -> Vec<Row> {
    let mut rows = Vec::new();
    for (queue, form) in QUEUES.iter().flat_map(|&queue| FORMS.map(|form| (queue, form))) {
        for (size, t) in SIZES.iter().flat_map(|&size| PERIODS.map(|t| (size, t))) {
            for d in around(t) {
                rows.extend(around(d).map(|j| [queue, form, size, t, d, j]));
            }
        }
    }
    rows
}

/// Words that this field, counted from 0, does not allow in this otherwise good row.
pub(crate) fn bad_words(row: &Row, field: usize) -> Vec<u32> {
    let [_, form, _, t, d, _] = *row;
    match field {
        0 => vec![LAST_FIFO + 1, LAST_FIFO + 2, 1 << 16, MAX],
        1 => vec![3, 4, 1 << 8, MAX],
        2 if form == 0 => vec![0, MAX_BITS + 1, MAX],
        2 => vec![MAX_BYTES + 1, MAX_BYTES + 2, MAX_BITS, MAX],
        3 => vec![0, MAX_PERIOD + 1, MAX],
        4 => vec![0, t.saturating_add(1), MAX],
        _ => vec![d.saturating_add(1), t.max(d.saturating_add(1)), MAX],
    }
}
