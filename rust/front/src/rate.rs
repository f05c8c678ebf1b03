//! The bit rate of a bus, as the first line of a file tells it.

use std::fmt;

use crate::cells::whole;
use crate::fault::Fault;
use crate::lines::{trimmed, Line};

const WORD: &str = "bitrate";
/// What others write for it.
const OTHER_WORD: &str = "baud";

/// Bits per second, at least one.
#[derive(Debug, Clone, Copy, PartialEq, Eq)]
pub struct Rate(u32);

impl Rate {
    /// So many bits per second, unless that is none.
    pub fn new(bits: u32) -> Option<Rate> {
        (bits > 0).then_some(Rate(bits))
    }

    /// The bits per second.
    pub fn bits(self) -> u32 {
        self.0
    }

    /// The rate that this comment tells, if it tells one. It may do so on the first line only: to
    /// pass over it elsewhere would take milliseconds for bit times without a word.
    pub(crate) fn of_comment(line: Line) -> Result<Option<Rate>, Fault> {
        let letters = line.text.chars().filter(|c| c.is_alphanumeric());
        let squeezed: String = letters.map(|c| c.to_ascii_lowercase()).collect();
        if line.number == 1 && squeezed.starts_with(OTHER_WORD) {
            return Err(Fault::new(format!(
                "a bit rate is not told by `{OTHER_WORD}`: {}; a comment that tells none begins \
                 with another word",
                expected(line.text)
            )));
        }
        let Some(after) = squeezed.strip_prefix(WORD) else { return Ok(None) };
        let is_rate = line.number == 1 || after.starts_with(|c: char| c.is_ascii_digit());
        match (is_rate, line.number, Rate::of_text(line.text)) {
            (false, ..) => Ok(None),
            (true, 1, Some(rate)) => Ok(Some(rate)),
            (true, 1, None) => Err(Fault::new(expected(line.text))),
            _ => Err(Fault::new(
                "a bit rate is told on the first line of the file only: move it there, or begin \
                 this comment with another word",
            )),
        }
    }

    /// The rate, if this is the line `# bitrate N`.
    fn of_text(text: &str) -> Option<Rate> {
        let text = trimmed(text.strip_prefix('#')?);
        let (word, number) = text.split_once(' ')?;
        let number = whole(trimmed(number)).ok()?;
        word.eq_ignore_ascii_case(WORD).then(|| Rate::new(number))?
    }
}

/// What to write where this text was meant for a rate. Spreadsheets fill it up with commas.
fn expected(text: &str) -> String {
    let expected = "expected `# bitrate N` with N bits per second, a whole number from 1 to \
                    4294967295, and nothing else on the line";
    match trimmed(text).ends_with(',') {
        true => format!("{expected} (remove every comma at its end)"),
        false => expected.to_string(),
    }
}

impl fmt::Display for Rate {
    fn fmt(&self, f: &mut fmt::Formatter) -> fmt::Result {
        write!(f, "{} bits per second", self.0)
    }
}

#[cfg(test)]
mod tests {
    use super::Rate;
    use crate::lines::Line;

    fn comment(number: usize, text: &str) -> Result<Option<Rate>, usize> {
        Rate::of_comment(Line { number, text }).map_err(|_| number)
    }

    #[test]
    fn the_first_line_tells_the_rate() {
        for text in ["# bitrate 250000", "#bitrate 250000", "#  BitRate   250000  "] {
            assert_eq!(comment(1, text), Ok(Rate::new(250_000)), "{text}");
        }
        assert_eq!(comment(1, "# bitrate 1"), Ok(Rate::new(1)));
        assert_eq!(comment(1, "# bitrate 4294967295"), Ok(Rate::new(u32::MAX)));
        assert_eq!(comment(1, "# the bitrate 250000"), Ok(None));
        assert_eq!(comment(1, "#"), Ok(None));
    }

    // Where a rate was meant, it is not passed over.
    #[test]
    fn what_is_nearly_a_rate_is_a_fault() {
        let texts = [
            "# bitrate",
            "# bitrate 0",
            "# bitrate 4294967296",
            "# bitrate -5",
            "# bitrate 2.5",
            "# bitrate 250k",
            "# bitrate 250 000",
            "# bitrate: 250000",
            "# bitrate=250000",
            "# bit rate 250000",
            "## bitrate 250000",
            "# bitrate250000",
            "# bitrate fast",
        ];
        for text in texts {
            assert_eq!(comment(1, text), Err(1), "{text}");
        }
        assert_eq!(comment(2, "# bitrate 250000"), Err(2));
        assert_eq!(comment(2, "# bitrate: 250000"), Err(2));
        assert_eq!(comment(2, "# bitrate of the deck bus"), Ok(None));
    }

    #[test]
    fn another_word_for_it_is_a_fault() {
        for text in ["# baud rate 250000", "#baudrate 250000", "# Baud", "## BAUD-RATE: 250k"] {
            assert_eq!(comment(1, text), Err(1), "{text}");
        }
        assert_eq!(comment(1, "# the baud rate"), Ok(None));
        assert_eq!(comment(2, "# baud rate of the deck bus"), Ok(None));
    }

    #[test]
    fn commas_at_the_end_are_named() {
        let words = |text| Rate::of_comment(Line { number: 1, text }).expect_err(text).message;
        for text in ["# bitrate 250000,,,,,", "# bitrate 250000, , ", "# baud 250000,"] {
            assert!(words(text).contains("remove every comma at its end"), "{text}");
        }
        assert!(!words("# bitrate 250,000").contains("remove"));
    }
}
