//! The sums: the figure of a band, and the figures of an order that keeps the queues together.

use crate::row::Row;

/// Where the search for w starts. A type says it, so that it is settled when the program is
/// compiled and costs no test while it runs.
pub(crate) trait Start {
    /// The first w that is tried: no more than F of it, nor than any w with F(w) = w.
    fn first_w(constant: u32, lengths_above: u32) -> u32;
}

/// The start of request L3: the constant part plus the lengths C of all rows above.
///
/// Each row above is counted at least once in F(w), whatever w is: w + J + 1 is at least 1, so its
/// quotient by T, rounded up, is too. So F is nowhere below this start, and no w below it has
/// F(w) = w.
pub(crate) struct ConstantAndLengths;

/// The start before request L3: the constant part alone, which F is nowhere below either.
pub(crate) struct ConstantPart;

impl Start for ConstantAndLengths {
    fn first_w(constant: u32, lengths_above: u32) -> u32 {
        constant + lengths_above
    }
}

impl Start for ConstantPart {
    fn first_w(constant: u32, _: u32) -> u32 {
        constant
    }
}

/// What the sums ask of a band's own rows.
///
/// One formula serves both kinds: for one row SUM - MIN is 0, and MAX and MIN are its C.
pub(crate) struct Band {
    /// How many rows it has.
    pub(crate) rows: usize,
    pub(crate) sum: u32,
    pub(crate) max: u32,
    min: u32,
    least_e: u32,
}

impl Band {
    pub(crate) fn of(rows: &[Row]) -> Band {
        let mut band = Band { rows: rows.len(), sum: 0, max: 0, min: u32::MAX, least_e: u32::MAX };
        for row in rows {
            band.sum += row.c;
            band.max = band.max.max(row.c);
            band.min = band.min.min(row.c);
            band.least_e = band.least_e.min(row.e);
        }
        band
    }

    /// The figure R = w + MIN, if it is no more than the least E in the band. The lengths C of the
    /// rows above come to `lengths_above`.
    pub(crate) fn figure<'a, S: Start>(
        &self,
        above: impl Iterator<Item = &'a Row> + Clone,
        lengths_above: u32,
        longest_below: u32,
    ) -> Option<u32> {
        let constant = longest_below.max(self.max) + self.sum - self.min;
        let latest_w = self.least_e.checked_sub(self.min)?;
        least_w::<S>(constant, above, lengths_above, latest_w).map(|w| w + self.min)
    }
}

/// Writes each row's figure, 0 for a late one, and gives the first late place in the order.
pub(crate) fn write_figures<S: Start>(
    placed: &[Row],
    order: &[u32],
    figures: &mut [u32],
) -> Option<usize> {
    let mut first_late = None;
    let mut lengths_above: u32 = placed.iter().map(|row| row.c).sum();
    let mut longest_below = 0;
    let mut end = placed.len();
    // From the lowest band up, so that the longest C below is at hand.
    for rows in placed.chunk_by(Row::same_band).rev() {
        let band = Band::of(rows);
        let start = end - band.rows;
        lengths_above -= band.sum;
        let figure = band.figure::<S>(placed[..start].iter(), lengths_above, longest_below);
        if figure.is_none() {
            first_late = Some(start);
        }
        for &row in &order[start..end] {
            figures[row as usize] = figure.unwrap_or(0);
        }
        longest_below = longest_below.max(band.max);
        end = start;
    }
    first_late
}

/// The least w with F(w) = w, if it is no more than `latest_w`.
///
/// No solution is below the start, and F never falls as w grows: from a w that is no more than a
/// solution, the step to F(w) leads no further than to F of that solution, which is the solution
/// itself. So climbing from the start passes none by, and where the start is past `latest_w`
/// already, there is none to climb to.
fn least_w<'a, S: Start>(
    constant: u32,
    above: impl Iterator<Item = &'a Row> + Clone,
    lengths_above: u32,
    latest_w: u32,
) -> Option<u32> {
    let mut w = S::first_w(constant, lengths_above);
    while w <= latest_w {
        let next = f(constant, above.clone(), w, latest_w)?;
        if next == w {
            return Some(w);
        }
        w = next;
    }
    None
}

/// F(w), if it is no more than `latest_w`: the constant part, and for each row above C times
/// (w + J + 1) / T, rounded up. A sum that has gone past `latest_w` is not added up to its end.
///
/// Here w, J and T are at most 1,000,000 each, so the quotient needs 32 bits; the sum needs 64.
fn f<'a>(
    constant: u32,
    mut above: impl Iterator<Item = &'a Row>,
    w: u32,
    latest_w: u32,
) -> Option<u32> {
    let sum = above.try_fold(u64::from(constant), |sum, k| {
        let sum = sum + u64::from(k.c) * u64::from((w + k.j + 1).div_ceil(k.t));
        (sum <= u64::from(latest_w)).then_some(sum)
    });
    sum.map(|sum| sum as u32)
}

#[cfg(test)]
mod tests {
    use std::cell::Cell;
    use std::slice::Iter;

    use super::*;
    use tables::Prng;

    /// Made-up searches; their seeds are 0 to one less.
    const SEARCHES: u64 = 100_000;
    /// How often each kind of search must have come up.
    const ENOUGH: u32 = 1_000;

    /// One search for w, over small numbers.
    #[derive(Debug)]
    struct Search {
        constant: u32,
        above: Vec<Row>,
        latest_w: u32,
    }

    /// The rows above, and how often they have been copied: a step does so once.
    struct Counted<'a> {
        rows: Iter<'a, Row>,
        copies: &'a Cell<u32>,
    }

    impl Clone for Counted<'_> {
        fn clone(&self) -> Self {
            self.copies.set(self.copies.get() + 1);
            Counted { rows: self.rows.clone(), copies: self.copies }
        }
    }

    impl<'a> Iterator for Counted<'a> {
        type Item = &'a Row;

        fn next(&mut self) -> Option<&'a Row> {
            self.rows.next()
        }
    }

    /// A row above, given as (C, T, J).
    fn row((c, t, j): (u32, u32, u32)) -> Row {
        Row { c, t, j, ..Row::NONE }
    }

    impl Search {
        /// These numbers, with each row above given as (C, T, J).
        fn new(constant: u32, above: &[(u32, u32, u32)], latest_w: u32) -> Search {
            Search { constant, above: above.iter().copied().map(row).collect(), latest_w }
        }

        /// Any constant part, up to four rows above, and a cap near the start of request L3, or
        /// near a solution, or anywhere.
        fn any(seed: u64) -> Search {
            let mut prng = Prng::new(seed);
            let constant = prng.between(1, 30);
            let above: Vec<(u32, u32, u32)> = (0..prng.below(5))
                .map(|_| (prng.between(1, 9), prng.between(1, 60), prng.between(0, 60)))
                .collect();
            let search = Search::new(constant, &above, 300);
            let near = match prng.below(3) {
                0 => constant + search.lengths(),
                1 => search.by_definition().unwrap_or(constant),
                _ => prng.between(1, 300),
            };
            Search { latest_w: near + prng.between(0, 2) - 1, ..search }
        }

        fn lengths(&self) -> u32 {
            self.above.iter().map(|k| k.c).sum()
        }

        /// F(w) in the words of document 01: a quotient is rounded up by counting how many T it
        /// takes to reach w + J + 1.
        fn f(&self, w: u32) -> u32 {
            let times = |k: &Row| (0..).find(|times| times * k.t > w + k.j).expect("T is not 0");
            self.constant + self.above.iter().map(|k| k.c * times(k)).sum::<u32>()
        }

        /// The least w with F(w) = w up to the cap, by trying 0, 1, 2 and so on.
        fn by_definition(&self) -> Option<u32> {
            (0..=self.latest_w).find(|&w| self.f(w) == w)
        }

        /// What is found from this start, and in how many steps.
        fn climbed<S: Start>(&self) -> (Option<u32>, u32) {
            let copies = Cell::new(0);
            let above = Counted { rows: self.above.iter(), copies: &copies };
            let w = least_w::<S>(self.constant, above, self.lengths(), self.latest_w);
            (w, copies.get())
        }
    }

    /// Both starts find so much, the start of request L3 in so many steps and the other in so many.
    #[track_caller]
    fn finds(search: &Search, w: Option<u32>, later_steps: u32, steps: u32) {
        assert_eq!(search.by_definition(), w, "{search:?}");
        assert_eq!(search.climbed::<ConstantAndLengths>(), (w, later_steps), "{search:?}");
        assert_eq!(search.climbed::<ConstantPart>(), (w, steps), "{search:?}");
    }

    // 20 and the lengths 3 and 4 are 27, and so is F(27): the quotients are 28 / 28 and 50 / 50.
    #[test]
    fn the_start_is_the_answer() {
        let above = [(3, 28, 0), (4, 50, 22)];
        finds(&Search::new(20, &above, 100), Some(27), 1, 2);
        finds(&Search::new(20, &above, 28), Some(27), 1, 2);
        // The start is the cap, and then one past it.
        finds(&Search::new(20, &above, 27), Some(27), 1, 2);
        finds(&Search::new(20, &above, 26), None, 0, 1);
    }

    // The start is 27 again, but 28 / 27 is rounded up to 2: F(27) is 30, and so is F(30).
    #[test]
    fn the_start_is_below_the_answer() {
        let above = [(3, 27, 0), (4, 60, 22)];
        finds(&Search::new(20, &above, 100), Some(30), 2, 3);
        finds(&Search::new(20, &above, 30), Some(30), 2, 3);
        finds(&Search::new(20, &above, 29), None, 1, 2);
        // The start is the cap, and then one past it.
        finds(&Search::new(20, &above, 27), None, 1, 2);
        finds(&Search::new(20, &above, 26), None, 0, 1);
    }

    // With no row above both starts are the constant part.
    #[test]
    fn nothing_above() {
        finds(&Search::new(20, &[], 21), Some(20), 1, 1);
        finds(&Search::new(20, &[], 20), Some(20), 1, 1);
        finds(&Search::new(20, &[], 19), None, 0, 0);
    }

    #[test]
    fn either_start_finds_what_the_definition_says() {
        let (mut at_start, mut past_start, mut none) = (0, 0, 0);
        let (mut start_at_cap, mut start_past_cap) = (0, 0);
        for search in (0..SEARCHES).map(Search::any) {
            let expected = search.by_definition();
            let start = search.constant + search.lengths();
            assert_eq!(search.climbed::<ConstantAndLengths>().0, expected, "{search:?}");
            assert_eq!(search.climbed::<ConstantPart>().0, expected, "{search:?}");
            match expected {
                None => none += 1,
                Some(w) if w == start => at_start += 1,
                Some(_) => past_start += 1,
            }
            start_at_cap += u32::from(start == search.latest_w);
            start_past_cap += u32::from(start == search.latest_w + 1);
        }
        println!("w at the start {at_start}, past it {past_start}, none {none}");
        println!("start at the cap {start_at_cap}, one past it {start_past_cap}");
        let counts = [at_start, past_start, none, start_at_cap, start_past_cap];
        assert!(counts.iter().all(|&count| count >= ENOUGH), "too few of one kind");
    }

    // From the constant part the first step leads to the later start or past it, so the later
    // start is never behind, and never more than that step ahead.
    #[test]
    fn the_later_start_saves_a_step_or_none() {
        let (mut saved, mut none_taken) = (0, 0);
        for search in (0..SEARCHES).map(Search::any) {
            let (_, later_steps) = search.climbed::<ConstantAndLengths>();
            let (_, steps) = search.climbed::<ConstantPart>();
            assert!(later_steps <= steps && steps <= later_steps + 1, "{search:?}");
            let past = search.constant + search.lengths() > search.latest_w;
            assert_eq!(later_steps == 0, past, "{search:?}");
            saved += u32::from(later_steps < steps);
            none_taken += u32::from(past);
        }
        println!("a step saved in {saved} of {SEARCHES}, none taken in {none_taken}");
        assert!(saved >= ENOUGH && none_taken >= ENOUGH, "too few of one kind");
    }
}
