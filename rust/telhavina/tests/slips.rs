//! 'Slips we have seen' of document 01: for four of them a table, an order and a legal run in
//! which a frame takes longer than the slip would have it, though the slip passes the table.

use bus::{Bus, Frame};
use telhavina::{claim, judge, Claim, Judgement, Ledger, Refusal};

/// Which slip is made in the sums.
#[derive(Clone, Copy, PartialEq, Eq)]
enum Slip {
    None,
    /// 'Taking B alone, without the band's own C.'
    BAlone,
    /// 'Using a FIFO row's own C where MAX, SUM and MIN belong.'
    OwnC,
    /// 'Judging a claim alone and adding up the yeses.'
    Alone,
}

/// The figure of this row, for which there is a w.
fn figure(bus: &Bus, row: usize, slip: Slip) -> u32 {
    let c = |&row: &usize| bus.rows[row].c;
    let longest = |rows: &[usize]| rows.iter().map(c).max().unwrap_or(0);
    let own = if slip == Slip::OwnC { vec![row] } else { bus.band(row) };
    let (above, below) = match slip {
        Slip::Alone => (Vec::new(), Vec::new()),
        _ => (bus.above(row), bus.below(row)),
    };
    let b = longest(&below);
    let behind = if slip == Slip::BAlone { b } else { b.max(longest(&own)) };
    let sum: u32 = own.iter().map(c).sum();
    let min = own.iter().map(c).min().unwrap_or(0);
    let quotient = |w: u32, k: usize| (w + bus.rows[k].j + 1).div_ceil(bus.rows[k].t);
    let delays = |w: u32| above.iter().map(|&k| bus.rows[k].c * quotient(w, k)).sum::<u32>();
    // F never falls as w grows, so climbing from 0 passes no solution by.
    let mut w = 0;
    loop {
        match behind + sum - min + delays(w) {
            next if next == w => return w + min,
            next => w = next,
        }
    }
}

/// The figures by row.
fn figures(bus: &Bus, slip: Slip) -> Vec<u32> {
    (0..bus.rows.len()).map(|row| figure(bus, row, slip)).collect()
}

/// Whether no figure is more than the least time that is allowed in its band.
fn pass(table: &[u32], bus: &Bus, figures: &[u32], allowed: fn(&[u32; 6]) -> u32) -> bool {
    let (rows, _) = table.as_chunks();
    let within = |row: usize| bus.band(row).iter().all(|&own| figures[row] <= allowed(&rows[own]));
    (0..rows.len()).all(within)
}

/// E = D - J, which is the time allowed after queuing.
fn e([_, _, _, _, d, j]: &[u32; 6]) -> u32 {
    d - j
}

/// D, which is the time allowed after the event.
fn d([_, _, _, _, d, _]: &[u32; 6]) -> u32 {
    *d
}

/// A frame as (row, bit time in which it is queued, wait, length).
type Short = (usize, u32, u32, u32);

/// How long each frame of this run takes to send. The run is legal.
#[track_caller]
fn times(bus: &Bus, run: &[Short]) -> Vec<u32> {
    let run: Vec<Frame> = run.iter().copied().map(Frame::from).collect();
    assert_eq!(bus.breach(&run), None);
    let sent = bus.sent(&run, 1_000).into_iter().map(|sent| sent.expect("the run is long"));
    sent.zip(&run).map(|(sent, frame)| sent - frame.queued).collect()
}

/// The library says that the order is late at this place, and gives these figures.
#[track_caller]
fn late(table: &[u32], order: &[u32], place: usize, expected: &[u32]) {
    let mut figures = vec![0; order.len()];
    assert_eq!(judge(table, order, &mut figures), Judgement::Late { place });
    assert_eq!(figures, expected);
}

// Without a slip these sums are the library's.
#[test]
fn no_slip() {
    let mut passed = 0;
    for case in (0..10_000).map(tables::case) {
        let mut expected = vec![0; case.order.len()];
        if judge(&case.table, &case.order, &mut expected) == Judgement::Passed {
            passed += 1;
            let bus = Bus::new(&case.table, &case.order);
            assert_eq!(figures(&bus, Slip::None), expected, "{case}");
            assert!(pass(&case.table, &bus, &expected, e), "{case}");
        }
    }
    assert!(passed >= 1_000, "only {passed} tables passed");
}

// 'Taking B alone, without the band's own C', the lowest row gets 30 and passes. But its first
// frame puts off frames of the rows above, and they delay its second: that takes 35, and is late.
#[test]
fn b_alone() {
    let table = [
        0, 0, 10, 25, 25, 0, // row 0
        0, 0, 10, 35, 35, 0, // row 1
        0, 0, 10, 35, 34, 0, // row 2
    ];
    let order = [0, 1, 2];
    let bus = Bus::new(&table, &order);
    let slip = figures(&bus, Slip::BAlone);
    assert_eq!(slip, [20, 30, 30]);
    assert!(pass(&table, &bus, &slip, e));

    let run = [
        (0, 0, 0, 10),
        (1, 0, 0, 10),
        (2, 0, 0, 10),
        (0, 25, 0, 10),
        (1, 35, 0, 10),
        (2, 35, 0, 10),
        (0, 50, 0, 10),
    ];
    let times = times(&bus, &run);
    assert_eq!(times, [10, 20, 30, 15, 15, 35, 10]);
    assert!(times[5] > slip[2] && times[5] > 34);
    assert_eq!(figures(&bus, Slip::None), [20, 30, 70]);
    late(&table, &order, 2, &[20, 30, 0]);
}

// 'Comparing R with D', row 0 passes: its figure is 20 and its deadline 25. But a frame of it
// that has waited 10 takes 19, and is sent 29 after its event.
#[test]
fn r_against_d() {
    let table = [
        0, 0, 10, 100, 25, 10, // row 0
        0, 0, 10, 100, 100, 0, // row 1
    ];
    let order = [0, 1];
    let bus = Bus::new(&table, &order);
    let figures = figures(&bus, Slip::None);
    assert_eq!(figures, [20, 30]);
    assert!(pass(&table, &bus, &figures, d) && !pass(&table, &bus, &figures, e));

    let times = times(&bus, &[(1, 0, 0, 10), (0, 1, 10, 10)]);
    assert_eq!(times, [10, 19]);
    assert!(10 + times[1] > 25);
    late(&table, &order, 0, &[0, 30]);
}

// 'Using a FIFO row's own C', the rows of the FIFO get 60 and 75 and pass. But behind a lower
// frame, a higher one and its fellow's, a frame of row 0 takes 84, and is late.
#[test]
fn own_c_of_a_fifo_row() {
    let table = [
        1, 0, 10, 300, 80, 0, // row 0, in FIFO 1
        1, 0, 25, 300, 300, 0, // row 1, in FIFO 1 too
        0, 0, 20, 100, 100, 0, // row 2, above
        0, 0, 30, 300, 300, 0, // row 3, below
    ];
    let order = [2, 0, 1, 3];
    let bus = Bus::new(&table, &order);
    let slip = figures(&bus, Slip::OwnC);
    assert_eq!(slip, [60, 75, 50, 115]);
    assert!(pass(&table, &bus, &slip, e));

    let run = [(3, 0, 0, 30), (2, 1, 0, 20), (1, 1, 0, 25), (0, 1, 0, 10)];
    let times = times(&bus, &run);
    assert_eq!(times, [30, 49, 74, 84]);
    assert!(times[3] > slip[0] && times[3] > 80);
    assert_eq!(figures(&bus, Slip::None), [85, 85, 50, 115]);
    late(&table, &order, 1, &[0, 0, 50, 115]);
}

// 'Judging a claim alone and adding up the yeses', both rows get twice their length and pass. But
// a frame of row 1 that comes just after one of row 0 takes 39, and is late; with row 0 above it
// takes 40. At the desk row 0 passes at the lowest place with 30 + 10 + 30 = 70, and above it row 1
// needs 30 + 10 = 40: the second claim is refused.
#[test]
fn each_claim_alone() {
    let table = [
        0, 0, 30, 100, 100, 0, // row 0
        0, 0, 10, 100, 25, 0, // row 1
    ];
    for (order, run, time, late_place, expected) in [
        ([1, 0], [(0, 0, 0, 30), (1, 1, 0, 10)], 39, 0, [70, 0]),
        ([0, 1], [(0, 0, 0, 30), (1, 0, 0, 10)], 40, 1, [60, 0]),
    ] {
        let bus = Bus::new(&table, &order);
        let slip = figures(&bus, Slip::Alone);
        assert_eq!(slip, [60, 20]);
        assert!(pass(&table, &bus, &slip, e));

        let times = times(&bus, &run);
        assert_eq!(times, [30, time]);
        assert!(time > slip[1] && time > 25);
        late(&table, &order, late_place, &expected);
    }

    let mut ledger = Ledger::fresh();
    assert_eq!(claim(&mut ledger, &table[..6], 0), Claim::Granted { edition: 1 });
    let none = Refusal::NoOrder { unplaced: 1, tried: 2 };
    assert_eq!(claim(&mut ledger, &table[6..], 1), Claim::Refused(none));
    assert_eq!(ledger.rows(), &table[..6]);
}
