//! Times in milliseconds, and the whole bit times that they come to. Whatever has to be rounded is
//! rounded so that no message looks better off than it is.

use std::fmt;

use crate::cells::whole;
use crate::rate::Rate;

/// Times are read to the billionth of a millisecond.
pub const DECIMALS: usize = 9;
const BILLION: u64 = 1_000_000_000;
/// Billionths of a millisecond in a second.
const SECOND: u128 = 1_000_000_000_000;

/// Which way a time that is no whole number of bit times goes.
#[derive(Debug, Clone, Copy, PartialEq, Eq)]
pub enum Rounding {
    /// To the bit time before.
    Down,
    /// To the bit time after.
    Up,
}

/// A time that was read, in billionths of a millisecond.
#[derive(Debug, Clone, Copy, PartialEq, Eq)]
pub struct Millis(u64);

/// A time to show in milliseconds: so many units of the last decimal.
#[derive(Debug, Clone, Copy, PartialEq, Eq)]
pub struct InMillis {
    units: u128,
    decimals: u32,
}

impl Rate {
    /// This time in whole bit times, unless that takes more than 32 bits.
    pub fn bit_times(self, time: Millis, rounding: Rounding) -> Option<u32> {
        let bits = u128::from(time.0) * u128::from(self.bits());
        u32::try_from(divided(bits, SECOND, rounding)).ok()
    }

    /// So many bit times in milliseconds.
    pub fn millis(self, bit_times: u32, rounding: Rounding) -> InMillis {
        let decimals = self.decimals();
        let bits = u128::from(bit_times) * 1000 * 10u128.pow(decimals);
        InMillis { units: divided(bits, u128::from(self.bits()), rounding), decimals }
    }

    /// At least 3; the fewest that tell every bit time exactly, if so many as 9 do, and otherwise
    /// enough for the rounding to be much less than a bit time.
    fn decimals(self) -> u32 {
        let exact = |&d: &u32| 10u64.pow(3 + d).is_multiple_of(u64::from(self.bits()));
        let enough = self.bits().ilog10().saturating_sub(1).max(3);
        (3..=9).find(exact).unwrap_or(enough)
    }
}

impl fmt::Display for InMillis {
    fn fmt(&self, f: &mut fmt::Formatter) -> fmt::Result {
        let unit = 10u128.pow(self.decimals);
        let (whole, rest) = (self.units / unit, self.units % unit);
        write!(f, "{whole}.{rest:0width$}", width = self.decimals as usize)
    }
}

impl Millis {
    /// The time that this text tells, as `2.5`, or why it tells none.
    pub(crate) fn of_text(text: &str) -> Result<Millis, String> {
        let (before, after) = match text.split_once('.') {
            Some((before, after)) => (before, Some(after)),
            None => (text, None),
        };
        let is_number = |c: char| c.is_ascii_digit() || "+-.".contains(c);
        if !text.chars().all(is_number) {
            return Err("is no number".to_string());
        }
        let before = u64::from(whole(before)?);
        let after = after.map_or(Ok(0), decimals)?;
        Ok(Millis(before * BILLION + after))
    }
}

/// What stands after the point, in billionths.
fn decimals(text: &str) -> Result<u64, String> {
    match text.len() {
        0 => Err("has no digits after the point".to_string()),
        1..=DECIMALS => Ok(u64::from(whole(&format!("{text:0<DECIMALS$}"))?)),
        _ => Err(format!("has more than {DECIMALS} decimals")),
    }
}

fn divided(number: u128, by: u128, rounding: Rounding) -> u128 {
    match rounding {
        Rounding::Down => number / by,
        Rounding::Up => number.div_ceil(by),
    }
}

#[cfg(test)]
mod tests {
    use super::{Millis, Rounding};
    use crate::rate::Rate;

    fn rate(bits: u32) -> Rate {
        Rate::new(bits).expect("a rate")
    }

    /// The bit times that this text comes to, rounded down and up.
    fn both(bits: u32, text: &str) -> (Option<u32>, Option<u32>) {
        let time = Millis::of_text(text).expect("a time");
        let rate = rate(bits);
        (rate.bit_times(time, Rounding::Down), rate.bit_times(time, Rounding::Up))
    }

    fn shown(bits: u32, bit_times: u32) -> (String, String) {
        let rate = rate(bits);
        (
            rate.millis(bit_times, Rounding::Down).to_string(),
            rate.millis(bit_times, Rounding::Up).to_string(),
        )
    }

    // At 250000 bits per second a bit time is 0.004 ms.
    #[test]
    fn just_before_on_and_just_after_a_bit() {
        assert_eq!(both(250_000, "0"), (Some(0), Some(0)));
        assert_eq!(both(250_000, "0.000000001"), (Some(0), Some(1)));
        assert_eq!(both(250_000, "0.0039999"), (Some(0), Some(1)));
        assert_eq!(both(250_000, "0.003999999"), (Some(0), Some(1)));
        assert_eq!(both(250_000, "0.004"), (Some(1), Some(1)));
        assert_eq!(both(250_000, "0.004000000"), (Some(1), Some(1)));
        assert_eq!(both(250_000, "0.004000001"), (Some(1), Some(2)));
        assert_eq!(both(250_000, "2.5"), (Some(625), Some(625)));
        assert_eq!(both(250_000, "2.499999999"), (Some(624), Some(625)));
        assert_eq!(both(250_000, "0002.50"), (Some(625), Some(625)));
    }

    // 3 ms at 33333 bits per second are 99.999 bit times; 0.1 + 0.2 is no trouble to whole numbers.
    #[test]
    fn a_rate_that_divides_nothing() {
        assert_eq!(both(33_333, "3"), (Some(99), Some(100)));
        assert_eq!(both(3, "333.333333333"), (Some(0), Some(1)));
        assert_eq!(both(3, "333.333333334"), (Some(1), Some(2)));
        assert_eq!(both(3, "1000"), (Some(3), Some(3)));
        assert_eq!(both(1_000_000, "0.3"), (Some(300), Some(300)));
    }

    #[test]
    fn the_largest_that_fit_32_bits() {
        assert_eq!(both(1, "4294967295"), (Some(4_294_967), Some(4_294_968)));
        assert_eq!(both(1_000, "4294967295"), (Some(u32::MAX), Some(u32::MAX)));
        assert_eq!(both(1_000, "4294967295.000000001"), (Some(u32::MAX), None));
        assert_eq!(both(1_000, "4294967295.999999999"), (Some(u32::MAX), None));
        assert_eq!(both(1_001, "4294967295"), (None, None));
        assert_eq!(both(u32::MAX, "1000"), (Some(u32::MAX), Some(u32::MAX)));
        assert_eq!(both(u32::MAX, "1000.000000001"), (Some(u32::MAX), None));
        assert_eq!(both(u32::MAX, "4294967295.999999999"), (None, None));
    }

    #[test]
    fn texts_that_tell_no_time() {
        let texts = [
            "",
            ".",
            "5.",
            ".5",
            "-1",
            "+1",
            "1e3",
            "1,5",
            "1.2.3",
            "1.+5",
            "1.-5",
            "1. 5",
            " 1",
            "0x1",
            "4294967296",
            "1.0000000000",
            "1.00000000x",
            "١",
            "1.٠",
            "inf",
            "NaN",
            "½",
        ];
        for text in texts {
            assert!(Millis::of_text(text).is_err(), "{text}");
        }
    }

    #[test]
    fn shown_exactly_where_few_decimals_do() {
        assert_eq!(shown(250_000, 1), ("0.004".into(), "0.004".into()));
        assert_eq!(shown(250_000, 1_000_000), ("4000.000".into(), "4000.000".into()));
        assert_eq!(shown(800_000, 1), ("0.00125".into(), "0.00125".into()));
        assert_eq!(shown(5_000_000, 7), ("0.0014".into(), "0.0014".into()));
        assert_eq!(shown(1, u32::MAX), ("4294967295000.000".into(), "4294967295000.000".into()));
    }

    // Otherwise the next above and the next below, and never so far off as a bit time.
    #[test]
    fn shown_from_both_sides_where_they_do_not() {
        assert_eq!(shown(33_333, 100), ("3.000".into(), "3.001".into()));
        assert_eq!(shown(3, 1), ("333.333".into(), "333.334".into()));
        assert_eq!(shown(u32::MAX, 1), ("0.00000023".into(), "0.00000024".into()));
        assert_eq!(shown(33_333, 0), ("0.000".into(), "0.000".into()));
    }

    // What it is to round: no whole number of bit times is nearer on that side.
    #[test]
    fn by_definition() {
        let mut prng = tables::Prng::new(1);
        for _ in 0..20_000 {
            let (bits, time) = (prng.of_any_magnitude(1, u32::MAX), prng.word() >> prng.below(64));
            let exact = u128::from(time) * u128::from(bits);
            let rate = rate(bits);
            let second = 1_000_000_000_000;
            match rate.bit_times(Millis(time), Rounding::Down).map(u128::from) {
                Some(down) => assert!(down * second <= exact && exact < (down + 1) * second),
                None => assert!(exact >= second << 32),
            }
            match rate.bit_times(Millis(time), Rounding::Up).map(u128::from) {
                Some(up) => assert!(exact <= up * second && up * second < exact + second),
                None => assert!(exact > second * u128::from(u32::MAX)),
            }
        }
    }

    #[test]
    fn a_time_shown_and_read_again_is_the_same() {
        for bits in [1, 3, 999, 9_999, 10_000, 10_001, 33_333, 83_333, 99_999, 100_001, 123_457] {
            for bit_times in [0, 1, 2, 3, 99, 100, 12_345, 999_999, 1_000_000] {
                let (down, up) = shown(bits, bit_times);
                assert_eq!(both(bits, &up).0, Some(bit_times), "{bits} {bit_times} {up}");
                assert_eq!(both(bits, &down).1, Some(bit_times), "{bits} {bit_times} {down}");
            }
        }
    }
}
