//! Made-up files: tables written in many ways, and damage to them.

use tables::Prng;

use super::HEADER;

/// Names that are odd, but names; and some that could be taken for something else.
const NAMES: [&str; 10] = ["Rudder", "Kühlraum", "網", "a b", "0", "1", "007", "-x", "c'd", "\\"];

/// What does not belong into a file, or not just anywhere.
const ODD: [&[u8]; 27] = [
    b"\xEF\xBB\xBF",
    b"\xFF",
    b"\xC3",
    b"\r",
    b"\0",
    b"\t",
    b"\x1B",
    b"\"",
    b",",
    b",,",
    b"\n",
    b"#",
    b"# bitrate 250000\n",
    b"# bitrate 33333\n",
    b" ",
    b"-",
    b"+",
    b".",
    b"0.0039999",
    b"0",
    b"4294967295",
    b"4294967296",
    b"fifo 0",
    b"fifo 65",
    b"99999999999999999999999",
    b"\xE2\x80\xAE",
    b"\xC3\xB8",
];

/// How the times of a file are written.
#[derive(Clone, Copy, PartialEq)]
enum Times {
    BitTimes,
    /// In milliseconds at 250000 bits per second, where a bit time is 4,000,000 billionths.
    Millis,
}

const BIT: u64 = 4_000_000;

/// A time that is read as so many bit times: one that is rounded down may be anything less than a
/// bit time longer, and one that is rounded up anything less than that shorter.
fn time(bit_times: u32, times: Times, rounded_up: bool, prng: &mut Prng) -> String {
    if times == Times::BitTimes {
        return bit_times.to_string();
    }
    let slip = prng.pick(&[0, 1, BIT / 2, BIT - 1]);
    let exact = u64::from(bit_times) * BIT;
    let billionths = if rounded_up { exact.saturating_sub(slip) } else { exact + slip };
    let billionths = if bit_times == 0 && rounded_up { 0 } else { billionths };
    let text = format!("{}.{:09}", billionths / 1_000_000_000, billionths % 1_000_000_000);
    if prng.chance(50) {
        text.trim_end_matches('0').trim_end_matches('.').to_string()
    } else {
        text
    }
}

/// A row that can be written in a file: no other form than 0, 1 and 2 can.
fn row(words: &[u32], name: &str, times: Times, prng: &mut Prng) -> Option<String> {
    let &[queue, form, size, period, deadline, jitter] = words else { return None };
    let kind = *["bits", "std", "ext"].get(form as usize)?;
    let blank = |prng: &mut Prng| if prng.chance(10) { " " } else { "" };
    let queue = if queue == 0 { "priority".to_string() } else { format!("fifo {queue}") };
    let cells = [
        name.to_string(),
        if prng.chance(10) { queue.to_uppercase() } else { queue },
        format!("{kind}{} {size}", blank(prng)),
        time(period, times, false, prng),
        time(deadline, times, false, prng),
        format!("{}{}", if prng.chance(5) { "00" } else { "" }, time(jitter, times, true, prng)),
    ];
    let padded = cells.map(|cell| format!("{}{cell}{}", blank(prng), blank(prng)));
    Some(padded.join(","))
}

/// A file with this table, unless it cannot be written.
pub fn csv(words: &[u32], prng: &mut Prng) -> Option<String> {
    if words.is_empty() || !words.len().is_multiple_of(6) {
        return None;
    }
    let times = if prng.chance(30) { Times::Millis } else { Times::BitTimes };
    let first = if times == Times::Millis { "# bitrate 250000\n" } else { "" };
    let mut text = format!("{first}{}{HEADER}", if prng.chance(20) { "# made up\n\n" } else { "" });
    for (at, words) in words.chunks(6).enumerate() {
        let name = if prng.chance(30) { prng.pick(&NAMES) } else { "M" };
        text.push_str(&row(words, &format!("{name}.{at}"), times, prng)?);
        text.push_str(if prng.chance(5) { "\n# note\n\n" } else { "\n" });
    }
    Some(text)
}

/// Damages the bytes in a few places, more often by another number than beyond reading.
pub fn damage(bytes: &mut Vec<u8>, prng: &mut Prng) {
    let times = if prng.chance(60) { 1 } else { prng.between(0, 4) };
    for _ in 0..times {
        let (from, to) = (prng.below(bytes.len() + 1), prng.below(bytes.len() + 1));
        let (from, to) = (from.min(to), from.max(to));
        match prng.below(20) {
            0 => bytes.truncate(to),
            1 => drop(bytes.drain(from..to.min(from + 20))),
            2 => bytes.extend_from_within(from..to),
            3 => {
                if let Some(byte) = bytes.get_mut(from) {
                    *byte ^= 1 << prng.below(8);
                }
            }
            4..=12 => another_number(bytes, from, prng),
            13 | 14 => {
                let rate = prng.pick(&["250000", "33333", "1000", "1", "4294967295", "0"]);
                bytes.splice(0..0, format!("# bitrate {rate}\n").into_bytes());
            }
            _ => drop(bytes.splice(from..from, prng.pick(&ODD).iter().copied())),
        }
    }
}

/// Puts another digit, or another number, in the place of the first digit from here on.
fn another_number(bytes: &mut Vec<u8>, from: usize, prng: &mut Prng) {
    let Some(digit) = bytes.iter().skip(from).position(u8::is_ascii_digit) else { return };
    let other = match prng.below(3) {
        0 => prng.below(10).to_string(),
        1 => prng.pick(&["", "0", "8", "9", "64", "65", "4096", "4097", "1000000"]).to_string(),
        _ => format!("{}.{}", prng.below(100), prng.below(100_000)),
    };
    bytes.splice(from + digit..from + digit + 1, other.into_bytes());
}
