//! The rule of request L2 for the length of a frame against CAN's own stuffing, done bit by bit.
//!
//! After five equal bits in a row on the wire, stuff bits counted, the sender puts in one bit of
//! the opposite value. By ISO 11898-1 this holds after the last of the stuffable bits too: a run
//! of five that ends there is followed by a stuff bit, so one in that place counts here.

use bus::Bus;

/// So many equal bits in a row on the wire bring a stuff bit.
const RUN: usize = 5;
/// The bits at the end of a frame that are never stuffed.
const NEVER_STUFFED: usize = 13;
/// The most bits that are: those of a frame with a 29-bit identifier and 8 bytes.
const MOST_BITS: usize = 54 + 8 * 8;
/// Up to so many bits, every pattern is tried.
const FEW_BITS: usize = 20;

/// For each length of the run that the wire may end in, 0 to 4: the most stuff bits until then, if
/// any pattern ends so. A run of five is not among them, for its stuff bit has begun another.
type MostByRun = [Option<usize>; RUN];

/// What is sent for these bits.
fn stuffed(bits: &[bool]) -> Vec<bool> {
    let mut wire = Vec::with_capacity(2 * bits.len());
    for &bit in bits {
        wire.push(bit);
        if wire.ends_with(&[bit; RUN]) {
            wire.push(!bit);
        }
    }
    wire
}

/// How many stuff bits are sent with these bits.
fn stuff_bits(bits: &[bool]) -> usize {
    stuffed(bits).len() - bits.len()
}

/// The most stuff bits that request L2 allows for.
fn by_rule(bits: usize) -> usize {
    (bits - 1) / 4
}

/// The most stuff bits that any pattern of so many bits has, by trying them all.
fn by_trying(bits: usize) -> Option<usize> {
    let pattern = |number: u32| (0..bits).map(|at| number >> at & 1 == 1).collect::<Vec<_>>();
    (0..1 << bits).map(|number| stuff_bits(&pattern(number))).max()
}

/// The same from a table: of the bits so far, only the length of the current run decides whether
/// the next one brings a stuff bit.
fn by_table(bits: usize) -> Option<usize> {
    let mut most = [None; RUN];
    most[0] = Some(0);
    for _ in 0..bits {
        most = after_one_more(&most);
    }
    most.into_iter().flatten().max()
}

fn after_one_more(most: &MostByRun) -> MostByRun {
    let mut next = [None; RUN];
    for (run, so_far) in most.iter().enumerate() {
        let Some(so_far) = *so_far else { continue };
        let (longer, with_equal) = if run + 1 < RUN { (run + 1, so_far) } else { (1, so_far + 1) };
        next[longer] = next[longer].max(Some(with_equal));
        next[1] = next[1].max(Some(so_far));
    }
    next
}

/// The first so many bits of 11111 0000 1111 0000 and so on: each four go on with the run that a
/// stuff bit has begun.
fn worst_pattern(bits: usize) -> Vec<bool> {
    let fours = [[false; 4], [true; 4]].concat();
    [true; 5].into_iter().chain(fours.into_iter().cycle()).take(bits).collect()
}

/// What the bus takes for the longest time of this frame.
fn length(form: u32, bytes: usize) -> usize {
    Bus::new(&[0, form, bytes as u32, 1000, 1000, 0], &[0]).rows[0].c as usize
}

/// Form, byte count and number of stuffable bits of each frame there is.
fn frames() -> impl Iterator<Item = (u32, usize, usize)> {
    let of_form = |(form, g)| (0..=8).map(move |bytes| (form, bytes, g + 8 * bytes));
    [(1, 34), (2, 54)].into_iter().flat_map(of_form)
}

// Followed on paper, with a gap around each stuff bit.
#[test]
fn stuffed_by_hand() {
    let bits = |text: &str| -> Vec<bool> {
        text.chars().filter(|&digit| digit != ' ').map(|digit| digit == '1').collect()
    };
    for (plain, wire) in [
        ("111100001111", "111100001111"),
        ("11111", "11111 0"),
        ("0111110", "011111 0 0"),
        ("11111111111", "11111 0 11111 0 1"),
        ("00000111100001", "00000 1 1111 0 0000 1 1"),
    ] {
        assert_eq!(stuffed(&bits(plain)), bits(wire), "{plain}");
    }
}

#[test]
fn every_pattern_of_few_bits() {
    for bits in 1..=FEW_BITS {
        assert_eq!(by_trying(bits), Some(by_rule(bits)), "{bits} bits");
    }
}

#[test]
fn any_pattern_that_a_frame_can_have() {
    for bits in 1..=MOST_BITS {
        assert_eq!(by_table(bits), Some(by_rule(bits)), "{bits} bits");
        assert_eq!(stuff_bits(&worst_pattern(bits)), by_rule(bits), "{bits} bits");
    }
}

#[test]
fn a_frame_is_as_long_as_its_worst_pattern() {
    for (form, bytes, bits) in frames() {
        let most = by_table(bits).unwrap();
        assert_eq!(length(form, bytes), bits + NEVER_STUFFED + most, "form {form}, {bytes} bytes");
    }
}

// The rule of document 01 before request L2.
#[test]
fn one_stuff_bit_in_five_is_too_few() {
    for (form, bytes, bits) in frames() {
        let sent = stuffed(&worst_pattern(bits)).len() + NEVER_STUFFED;
        let allowed = bits + NEVER_STUFFED + bits / 5;
        assert_eq!(sent, length(form, bytes), "form {form}, {bytes} bytes");
        assert!(allowed < sent, "form {form}, {bytes} bytes");
    }
}
