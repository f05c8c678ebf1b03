//! Demand 3 on a simulated bus: whatever the rows of an accepted table do within their licences,
//! every frame is wholly sent within its figure. `-- --nocapture` shows how near it came.

mod accepted;
mod tally;

use std::fmt;

use accepted::Accepted;
use bus::{run, Shape};
use tables::Prng;
use tally::Tally;

/// Accepted tables.
const TABLES: usize = 6_000;
/// How many kinds of tables are counted, and how many of each there must be at least.
const KINDS: usize = 10;
const LEAST: u32 = 400;
/// As many random runs as others. The bars are a little below what was seen, so that no shape can
/// become harmless unnoticed.
const PLANS: [Plan; 3] = [
    Plan { shape: Shape::Random, runs: 6, part: 0.95, one_short: 500 },
    Plan { shape: Shape::BehindLower, runs: 4, part: 0.999, one_short: 50_000 },
    Plan { shape: Shape::BehindOwn, runs: 2, part: 0.999, one_short: 8_000 },
];

/// How many runs of a shape a table has, and how near to the figures they must come.
struct Plan {
    shape: Shape,
    runs: u32,
    /// What part of its figure some frame of a watched row must have taken.
    part: f64,
    /// How many frames that had to wait must have been sent just one bit time before.
    one_short: u32,
}

/// What was seen in runs of one shape.
#[derive(Default)]
struct Seen {
    runs: u32,
    /// Frames whose figure elapses within the run.
    frames: u32,
    /// Those of them that had to wait and were sent just one bit time before that.
    one_short: u32,
    /// The greatest part of its figure that a frame took.
    greatest: f64,
    /// The same for frames of the watched row.
    greatest_watched: f64,
}

impl Seen {
    /// Every frame of a run is sent before its figure has elapsed, if the run lasts that long.
    fn check(&mut self, accepted: &Accepted, shape: Shape, prng: &mut Prng) {
        let Accepted { case, figures, bus } = accepted;
        let end = accepted.end();
        let watched = prng.below(bus.rows.len());
        let run = run(bus, shape, watched, end, prng);
        let said = || format!("{shape:?}, row {watched} watched, until {end}\n{case}");
        assert_eq!(bus.breach(&run), None, "{}", said());
        let frames = self.frames;
        for (frame, sent) in run.iter().zip(bus.sent(&run, end)) {
            let figure = figures[frame.row];
            if frame.queued + figure > end {
                continue;
            }
            let Some(sent) = sent else { panic!("{frame:?} is not sent: {}", said()) };
            let time = sent - frame.queued;
            assert!(time <= figure, "{frame:?} took {time}, not {figure}: {}", said());
            // Stronger: the figure counts a blocking frame whole, but its first bit time is over.
            assert!(time < figure, "{frame:?} took all of {figure}: {}", said());
            let part = f64::from(time) / f64::from(figure);
            self.frames += 1;
            self.one_short += u32::from(time + 1 == figure && time > frame.length);
            self.greatest = self.greatest.max(part);
            if frame.row == watched {
                self.greatest_watched = self.greatest_watched.max(part);
            }
        }
        assert!(self.frames > frames, "no frame to check: {}", said());
        self.runs += 1;
    }
}

impl fmt::Display for Seen {
    fn fmt(&self, f: &mut fmt::Formatter) -> fmt::Result {
        let Seen { runs, frames, one_short, greatest, greatest_watched } = self;
        write!(f, "{runs:6} runs, {frames:8} frames, {one_short:6} one bit time short; ")?;
        write!(f, "at most {greatest:.4} of a figure, {greatest_watched:.4} of the watched one's")
    }
}

#[test]
fn every_frame_is_sent_within_its_figure() {
    let mut tally = Tally::default();
    let mut seen = PLANS.map(|_| Seen::default());
    for accepted in (0..).filter_map(Accepted::of).take(TABLES) {
        let mut prng = Prng::new(accepted.case.seed);
        for (plan, seen) in PLANS.iter().zip(&mut seen) {
            (0..plan.runs).for_each(|_| seen.check(&accepted, plan.shape, &mut prng));
        }
        accepted.kinds().into_iter().for_each(|kind| tally.count(kind));
    }
    tally.print(&format!("{TABLES} accepted tables, of them with"));
    tally.has(KINDS, LEAST);
    for (Plan { shape, part, one_short, .. }, seen) in PLANS.iter().zip(&seen) {
        println!("{shape:?}: {seen}");
        assert!(seen.greatest_watched >= *part, "{shape:?} came no nearer");
        assert!(seen.one_short >= *one_short, "{shape:?} came near too seldom");
    }
}
