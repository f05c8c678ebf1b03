//! What a bus carries: the rows of a table in their order, and the frames of a run.

/// A bus with a table and an order, both good.
#[derive(Debug, Clone, PartialEq, Eq)]
pub struct Bus {
    /// What the bus asks of each row, by row number.
    pub rows: Vec<Row>,
}

/// What the bus asks of a row.
#[derive(Debug, Clone, Copy, PartialEq, Eq)]
pub struct Row {
    /// The first row of its band: rows of one band wait in one queue.
    pub band: usize,
    /// Its place in the order, highest first.
    pub place: usize,
    /// C: its frames are no longer.
    pub c: u32,
    /// T: its events are at least so far apart.
    pub t: u32,
    /// J: its frames are queued no later after their events.
    pub j: u32,
}

/// One instance of a row in a run.
#[derive(Debug, Clone, Copy, PartialEq, Eq)]
pub struct Frame {
    /// The row it is of.
    pub row: usize,
    /// The bit time in which it is queued.
    pub queued: u32,
    /// How long after its event that is.
    pub wait: u32,
    /// Its own length.
    pub length: u32,
}

impl Bus {
    /// The bus of this table and order, which are good: the library judges them, and refuses
    /// neither.
    pub fn new(table: &[u32], order: &[u32]) -> Bus {
        let (words, _) = table.as_chunks::<6>();
        let mut rows: Vec<Row> = words.iter().map(Row::read).collect();
        for band in tables::bands(table) {
            for &row in &band {
                rows[row as usize].band = band[0] as usize;
            }
        }
        for (place, &row) in order.iter().enumerate() {
            rows[row as usize].place = place;
        }
        Bus { rows }
    }

    /// The rows of the bands above that of this row.
    pub fn above(&self, row: usize) -> Vec<usize> {
        self.others(row, |other, own| other.place < own.place)
    }

    /// The rows of the bands below that of this row.
    pub fn below(&self, row: usize) -> Vec<usize> {
        self.others(row, |other, own| other.place > own.place)
    }

    /// The rows of the band of this row, itself included.
    pub fn band(&self, row: usize) -> Vec<usize> {
        let same_band = |&other: &usize| self.rows[other].band == self.rows[row].band;
        (0..self.rows.len()).filter(same_band).collect()
    }

    /// The rows of other bands that stand so to this row. An order keeps each band together.
    fn others(&self, row: usize, stands: fn(&Row, &Row) -> bool) -> Vec<usize> {
        let own = &self.rows[row];
        let chosen = |other: &Row| other.band != own.band && stands(other, own);
        (0..self.rows.len()).filter(|&other| chosen(&self.rows[other])).collect()
    }
}

impl Row {
    /// What six good words say; band and place are not among it.
    fn read(words: &[u32; 6]) -> Row {
        let [_, form, size, t, _, j] = *words;
        let c = match form {
            0 => size,
            1 => stuffed(34 + 8 * size),
            _ => stuffed(54 + 8 * size),
        };
        Row { band: 0, place: 0, c, t, j }
    }
}

/// Bit times of a frame of which so many bits may need stuff bits. A stuff bit itself counts toward
/// the next five equal bits, so at worst one follows the first five bits and one each four more.
fn stuffed(bits: u32) -> u32 {
    bits + 13 + (bits - 1) / 4
}

impl Frame {
    /// When its event was: perhaps before time 0, though queuing never is.
    pub fn event(&self) -> i64 {
        i64::from(self.queued) - i64::from(self.wait)
    }
}

/// A frame as runs done by hand write it: (row, bit time in which it is queued, wait, length).
impl From<(usize, u32, u32, u32)> for Frame {
    fn from((row, queued, wait, length): (usize, u32, u32, u32)) -> Frame {
        Frame { row, queued, wait, length }
    }
}
