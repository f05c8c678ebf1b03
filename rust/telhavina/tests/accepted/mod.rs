//! Made-up tables and orders that the library passes, with the figures it gives.

use bus::Bus;
use tables::{find_case, Case, Prng};
use telhavina::{Finding, Judgement};

/// Tables with a greater figure are left out, for a run lasts several times as long.
const GREATEST_FIGURE: u32 = 30_000;
/// A run lasts at least so many times the greatest figure,
const FIGURES: u32 = 4;
/// and so many times the greatest period, unless that is short or long.
const PERIODS: u32 = 20;
const SHORT: u32 = 1_000;
const LONG: u32 = 40_000;

/// Where the order comes from, by the seed modulo 3.
const OWN: u64 = 0;
const FOUND: u64 = 1;
const ANY: u64 = 2;
/// Whether the deadlines are cut to what is just enough, by the seed modulo 2.
const TIGHT: u64 = 1;

/// An order that the library passes.
pub struct Accepted {
    /// The table and the order.
    pub case: Case,
    /// The figures by row.
    pub figures: Vec<u32>,
    /// The bus that has them.
    pub bus: Bus,
}

impl Accepted {
    /// The table of this seed with an order of its own, one that is found, or any that passes;
    /// half the time with deadlines that are just enough.
    pub fn of(seed: u64) -> Option<Accepted> {
        let mut case = match seed % 3 {
            OWN => tables::case(seed),
            FOUND => found(seed)?,
            _ => with_any_order(found(seed)?),
        };
        let figures = passed(&case)?;
        if figures.iter().any(|&figure| figure > GREATEST_FIGURE) {
            return None;
        }
        if seed % 2 == TIGHT {
            case = case.tightened(&figures, None);
            assert_eq!(passed(&case).as_ref(), Some(&figures), "{case}");
        }
        let bus = Bus::new(&case.table, &case.order);
        Some(Accepted { case, figures, bus })
    }

    /// How long its runs last.
    pub fn end(&self) -> u32 {
        let figure = self.figures.iter().max().map_or(0, |figure| FIGURES * figure);
        let period = self.bus.rows.iter().map(|row| row.t).max().map_or(0, |t| PERIODS * t);
        figure.max(period.clamp(SHORT, LONG))
    }

    /// What it has, of what some tables should have.
    pub fn kinds(&self) -> Vec<&'static str> {
        let (rows, _) = self.case.table.as_chunks::<6>();
        let band = |row: usize| self.bus.band(row).len();
        let kinds = [
            ("a FIFO of several rows", (0..rows.len()).any(|row| band(row) > 1)),
            ("one band only", band(0) == rows.len()),
            ("over 20 rows", rows.len() > 20),
            ("a length in bytes", rows.iter().any(|row| row[1] != 0)),
            ("a jitter", rows.iter().any(|row| row[5] != 0)),
            ("a figure over 5,000", self.figures.iter().any(|&figure| figure > 5_000)),
            ("an order of its own", self.case.seed % 3 == OWN),
            ("an order found", self.case.seed % 3 == FOUND),
            ("any order", self.case.seed % 3 == ANY),
            ("deadlines just enough", self.case.seed % 2 == TIGHT),
        ];
        kinds.into_iter().filter(|(_, has)| *has).map(|(kind, _)| kind).collect()
    }
}

/// The table of this seed with the order that the library finds, if there is one.
fn found(seed: u64) -> Option<Case> {
    let table = find_case(seed).table;
    let mut order = vec![0; table.len() / 6];
    match telhavina::find(&table, &mut order) {
        Finding::Found { .. } => Some(Case { seed, table, order, figures: Vec::new() }),
        Finding::Refused(_) => None,
    }
}

/// The same table with its bands in any order.
fn with_any_order(case: Case) -> Case {
    let mut bands = tables::bands(&case.table);
    Prng::new(case.seed).shuffle(&mut bands);
    Case { order: bands.concat(), ..case }
}

/// The figures by row, if the library passes the order.
fn passed(case: &Case) -> Option<Vec<u32>> {
    let mut figures = vec![0; case.order.len()];
    let judgement = telhavina::judge(&case.table, &case.order, &mut figures);
    (judgement == Judgement::Passed).then_some(figures)
}
