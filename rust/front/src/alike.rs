//! A name that was nearly written right, and the one that was meant.

use crate::shown::Quoted;

/// The hint that this name was meant.
pub fn did_you_mean(name: &str) -> String {
    format!("did you mean {}?", Quoted(name))
}

/// The name that was written but for capital and small letters.
pub fn but_for_case<'a>(
    written: &str,
    mut names: impl Iterator<Item = &'a str>,
) -> Option<&'a str> {
    let small = written.to_lowercase();
    names.find(|name| name.to_lowercase() == small)
}

/// The name that was written but for one slip, and for capital and small letters. Where names
/// differ by as little from each other, as those of messages do, this would be no hint.
pub fn but_for_a_slip<'a>(
    written: &str,
    mut names: impl Iterator<Item = &'a str>,
) -> Option<&'a str> {
    let small = written.to_lowercase();
    names.find(|name| is_a_slip(&small, name))
}

/// Whether the two differ by one letter that is wrong, missing or too many, or by two in a row that
/// changed places.
fn is_a_slip(one: &str, other: &str) -> bool {
    let letters = |text: &str| text.chars().collect::<Vec<_>>();
    let (one, other) = (letters(one), letters(other));
    let start = same(one.iter(), other.iter());
    let (one, other) = (one.split_at(start).1, other.split_at(start).1);
    let end = same(one.iter().rev(), other.iter().rev());
    match (one.split_at(one.len() - end).0, other.split_at(other.len() - end).0) {
        ([_], [_] | []) | ([], [_]) => true,
        ([a, b], [c, d]) => a == d && b == c,
        _ => false,
    }
}

/// How many letters are the same until the first that is not.
fn same<'a>(one: impl Iterator<Item = &'a char>, other: impl Iterator<Item = &'a char>) -> usize {
    one.zip(other).take_while(|(a, b)| a == b).count()
}

#[cfg(test)]
mod tests {
    use super::{but_for_a_slip, but_for_case};

    const NAMES: [&str; 3] = ["judge", "pack", "unpack"];

    #[test]
    fn case() {
        assert_eq!(but_for_case("PACK", NAMES.into_iter()), Some("pack"));
        assert_eq!(but_for_case("pac", NAMES.into_iter()), None);
    }

    #[test]
    fn slips() {
        let meant = |written| but_for_a_slip(written, NAMES.into_iter());
        for written in ["unpak", "unppack", "unpack ", "nupack", "unpick", "UNPAK"] {
            assert_eq!(meant(written), Some("unpack"), "{written}");
        }
        assert_eq!((meant("pak"), meant("jugde")), (Some("pack"), Some("judge")));
        for written in ["", "pa", "unpakc s", "packpack", "egduj", "u", "ap kc"] {
            assert_eq!(meant(written), None, "{written}");
        }
    }
}
