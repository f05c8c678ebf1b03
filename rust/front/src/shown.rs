//! Text from outside, shown so that it can do no harm to the line it stands in.

use std::fmt;

/// How much of a text is quoted in a message, in characters.
const QUOTED: usize = 60;

/// A text in which all that cannot be seen is written out, as `\u{1b}` for example.
pub struct Shown<'a>(pub &'a str);

impl fmt::Display for Shown<'_> {
    fn fmt(&self, f: &mut fmt::Formatter) -> fmt::Result {
        self.0.chars().try_for_each(|c| show(f, c))
    }
}

/// A text between quotation marks, its start if it is long.
pub struct Quoted<'a>(pub &'a str);

impl fmt::Display for Quoted<'_> {
    fn fmt(&self, f: &mut fmt::Formatter) -> fmt::Result {
        write!(f, "`")?;
        self.0.chars().take(QUOTED).try_for_each(|c| show(f, c))?;
        let rest = if self.0.chars().nth(QUOTED).is_some() { "..." } else { "" };
        write!(f, "{rest}`")
    }
}

fn show(f: &mut fmt::Formatter, c: char) -> fmt::Result {
    match c {
        '\'' | '"' | '\\' => write!(f, "{c}"),
        // Letters with marks stay as they are, also where the mark is a character of its own.
        _ if c.is_alphanumeric() || ('\u{300}'..='\u{36f}').contains(&c) => write!(f, "{c}"),
        _ => write!(f, "{}", c.escape_debug()),
    }
}

/// So many messages, or one message.
pub fn count(number: usize, what: &str) -> String {
    let ending = if number == 1 { "" } else { "s" };
    format!("{number} {what}{ending}")
}

#[cfg(test)]
mod tests {
    use super::{count, Quoted, Shown};

    #[test]
    fn what_cannot_be_seen_is_written_out() {
        assert_eq!(Shown("a\nb\u{1b}\u{a0}\u{202e}").to_string(), "a\\nb\\u{1b}\\u{a0}\\u{202e}");
        assert_eq!(Shown("C:\\fang 'ø' \"x\"").to_string(), "C:\\fang 'ø' \"x\"");
        assert_eq!(Shown("Kühlung, Ko\u{308}der, 網").to_string(), "Kühlung, Ko\u{308}der, 網");
    }

    #[test]
    fn a_long_text_is_cut() {
        assert_eq!(Quoted(&"ø".repeat(60)).to_string(), format!("`{}`", "ø".repeat(60)));
        assert_eq!(Quoted(&"ø".repeat(61)).to_string(), format!("`{}...`", "ø".repeat(60)));
    }

    #[test]
    fn one_or_more() {
        assert_eq!((count(1, "band"), count(2, "band")), ("1 band".into(), "2 bands".into()));
    }
}
