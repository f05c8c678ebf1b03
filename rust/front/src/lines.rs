//! The lines of a file, each of them plain text that looks like what it is.

use crate::fault::{Column, Fault};

const BYTE_ORDER_MARK: &[u8] = b"\xEF\xBB\xBF";
/// How UTF-16 starts, in both byte orders, where it has a mark.
const WIDE: [&[u8]; 2] = [b"\xFF\xFE", b"\xFE\xFF"];
/// What to do about a CR.
const SAVE_WITH_LF: &str = "save the file with LF line ends";
/// What to put in the place of a character that is not allowed.
const PLAIN: &str = "expected plain text and blanks";
/// What to do about bytes that are no text from the start.
const OR_A_BOOK: &str = "if it is meant to be a book, it is damaged: ask for it again";

/// One line of a file.
#[derive(Debug, Clone, Copy, PartialEq, Eq)]
pub struct Line<'a> {
    /// Counted from 1.
    pub number: usize,
    /// Without its end.
    pub text: &'a str,
}

impl Line<'_> {
    /// Whether the line is for people only, or tells the bit rate.
    pub fn is_comment(&self) -> bool {
        self.text.starts_with('#')
    }

    /// Whether there is nothing on it.
    pub fn is_blank(&self) -> bool {
        trimmed(self.text).is_empty()
    }

    /// Whether there is nothing in its cells.
    pub fn is_hollow(&self) -> bool {
        self.text.chars().all(|c| c == ',' || c == ' ')
    }
}

/// The text without the blanks around it. No other kind of blank gets past [`lines`].
pub fn trimmed(text: &str) -> &str {
    text.trim_matches(' ')
}

/// Whether a text that is no line of a file could stand on one, as far as its characters go.
pub fn refuse_strange(text: &str) -> Result<(), Fault> {
    match text.chars().find_map(strange) {
        None => Ok(()),
        Some(what) => Err(Fault::new(format!("{what} is not allowed: {PLAIN}"))),
    }
}

/// The lines of these bytes, each of them or what is wrong with it.
pub fn lines(bytes: &[u8]) -> impl Iterator<Item = Result<Line<'_>, Fault>> {
    let ends = if bytes.contains(&b'\n') { Ends::Lf } else { Ends::None };
    let bytes = bytes.strip_suffix(b"\n").unwrap_or(bytes);
    bytes
        .split(|&byte| byte == b'\n')
        .zip(1..)
        .map(move |(bytes, number)| line(bytes, number, ends).map_err(|f| f.on_line(number)))
}

/// Whether any line of a file ends in LF. If none does, a CR is an end of line of old.
#[derive(Debug, Clone, Copy, PartialEq, Eq)]
enum Ends {
    Lf,
    None,
}

fn line(bytes: &[u8], number: usize, ends: Ends) -> Result<Line<'_>, Fault> {
    let text = match str::from_utf8(bytes) {
        Ok(text) => text,
        // What is no text from the start need not have been meant as one, and has no columns.
        Err(_) if number == 1 => {
            let message = format!("not UTF-8 text: save a table as UTF-8; {OR_A_BOOK}");
            return Err(Fault::new(message));
        }
        Err(error) => {
            let before = bytes.get(..error.valid_up_to()).unwrap_or(bytes);
            let fault = Fault::new("not UTF-8 text: save the file as UTF-8");
            return Err(at(before, fault));
        }
    };
    let Some((place, c, what)) =
        text.char_indices().find_map(|(place, c)| Some((place, c, strange(c)?)))
    else {
        return Ok(Line { number, text });
    };
    let before = bytes.get(..place).unwrap_or(bytes);
    let not_allowed =
        |expected| at(before, Fault::new(format!("{what} is not allowed: {expected}")));
    Err(match (c, ends) {
        // A CR at the end is the end of a line, not a part of the last column.
        ('\r', Ends::None) => Fault::new(format!("the line ends in CR alone: {SAVE_WITH_LF}")),
        ('\r', Ends::Lf) if text.get(place..) == Some("\r") => {
            Fault::new(format!("the line ends in CR LF: {SAVE_WITH_LF}"))
        }
        ('\r', Ends::Lf) => not_allowed(SAVE_WITH_LF),
        // Also here: a book without a byte above 127 is UTF-8, but never without a NUL.
        _ if number == 1 && text.contains('\0') => {
            Fault::new(format!("{what} is not allowed: {PLAIN}; {OR_A_BOOK}"))
        }
        _ => not_allowed(PLAIN),
    })
}

/// Whether these bytes look like a text in UTF-16 without a mark, in either byte order: at least two
/// characters, the first of them one that a table can start with, and no NUL among all of them.
pub fn is_wide(bytes: &[u8]) -> bool {
    let first = match bytes {
        [0, first, _, _, ..] | [first, 0, _, _, ..] => first,
        _ => return false,
    };
    let is_text = first.is_ascii_graphic() || b" \t\r\n".contains(first);
    is_text && bytes.chunks(2).all(|character| character != [0, 0])
}

/// Some programs save a text otherwise, or put marks before it that would become part of what is
/// read first.
pub fn refuse_other_encodings(bytes: &[u8]) -> Result<(), Fault> {
    if bytes.starts_with(BYTE_ORDER_MARK) {
        return Err(Fault::new(
            "the file starts with a byte-order mark: save it as UTF-8 without one",
        ));
    }
    if is_wide(bytes) || WIDE.iter().any(|mark| bytes.starts_with(mark)) {
        return Err(Fault::new("the file looks like UTF-16: save it as UTF-8"));
    }
    Ok(())
}

/// The fault in the column that comes after these bytes of a line.
fn at(before: &[u8], fault: Fault) -> Fault {
    let commas = before.iter().filter(|&&byte| byte == b',').count();
    match Column::ALL.get(commas) {
        Some(&column) if !before.starts_with(b"#") => fault.in_column(column),
        _ => fault,
    }
}

/// What this character is, if it must not be in a file: one that cannot be seen, or not be told
/// from a blank, could make two names look like one.
fn strange(c: char) -> Option<String> {
    match c {
        ' ' => None,
        '\t' => Some("a tab".to_string()),
        '\r' => Some("a CR (carriage return)".to_string()),
        '\0' => Some("a NUL character".to_string()),
        _ if c.is_control() => Some(format!("the control character U+{:04X}", u32::from(c))),
        _ if c.is_whitespace() => Some(format!("the special blank U+{:04X}", u32::from(c))),
        '\u{AD}'
        | '\u{200B}'..='\u{200F}'
        | '\u{202A}'..='\u{202E}'
        | '\u{2060}'..='\u{206F}'
        | '\u{FEFF}' => Some(format!("the invisible character U+{:04X}", u32::from(c))),
        _ => None,
    }
}

#[cfg(test)]
mod tests {
    use super::{is_wide, lines, Line};
    use crate::fault::{Column, Fault};

    fn first_fault(bytes: &[u8]) -> Fault {
        lines(bytes).find_map(Result::err).expect("a fault")
    }

    #[test]
    fn the_last_end_of_line_may_be_missing() {
        let both = [Line { number: 1, text: "a" }, Line { number: 2, text: " b" }];
        for bytes in [b"a\n b".as_slice(), b"a\n b\n"] {
            assert_eq!(lines(bytes).collect::<Result<Vec<_>, _>>(), Ok(both.to_vec()));
        }
    }

    #[test]
    fn the_line_and_the_column_are_named() {
        let fault = first_fault(b"a,b\nc,d,e\xFF,f");
        assert_eq!((fault.line, fault.column), (Some(2), Some(Column::Length)));
        let fault = first_fault(b"# a,b,\x07");
        assert_eq!((fault.line, fault.column), (Some(1), None));
        let fault = first_fault("a\u{200b}".as_bytes());
        assert_eq!((fault.line, fault.column), (Some(1), Some(Column::Name)));
        // Past the last column there is none to name.
        assert_eq!(first_fault(b",,,,,,\x07").column, None);
    }

    // Bytes that are no text from the start: a book whose first byte is damaged, or packed.
    #[test]
    fn no_text_from_the_start() {
        let book = "; if it is meant to be a book, it is damaged: ask for it again";
        let no_text = format!("line 1: not UTF-8 text: save a table as UTF-8{book}");
        for bytes in [b"\x1F\x8B\x08\0".as_slice(), b"a,b\xFF\nc", b"\x80\x01\0\0\0\x06"] {
            assert_eq!(first_fault(bytes).to_string(), no_text);
        }
        let control = "line 1: the control character U+0001 is not allowed: ";
        let expected = format!("{control}expected plain text and blanks{book}");
        assert_eq!(first_fault(b"\x01\x01\0\0\0\x06").to_string(), expected);
    }

    #[test]
    fn both_byte_orders_of_utf_16() {
        for text in ["name,queue", "# a note\n", "#網", "#\u{100}", "\n\nname", "\r\n#", " n", "nø"]
        {
            let low: Vec<u8> = text.encode_utf16().flat_map(u16::to_le_bytes).collect();
            let high: Vec<u8> = text.encode_utf16().flat_map(u16::to_be_bytes).collect();
            assert!(is_wide(&low) && is_wide(&high), "{text}");
            assert!(!is_wide(text.as_bytes()), "{text}");
            assert!(!is_wide(&[&high[..], b"\0\0"].concat()), "{text}");
        }
        for bytes in [b"".as_slice(), b"\0", b"\0n", b"\0n\0", b"\0\x01\0n", b"\0n\0\0\0\x01"] {
            assert!(!is_wide(bytes), "{bytes:?}");
        }
    }

    #[test]
    fn line_ends() {
        let said = |bytes| first_fault(bytes).to_string();
        let save = "save the file with LF line ends";
        for bytes in [b"a,b\rc,d\r".as_slice(), b"# a\rb,c", b"a,b\r"] {
            assert_eq!(said(bytes), format!("line 1: the line ends in CR alone: {save}"));
        }
        assert_eq!(said(b"a,b\r\nc"), format!("line 1: the line ends in CR LF: {save}"));
        let inside = format!("line 2, column queue: a CR (carriage return) is not allowed: {save}");
        assert_eq!(said(b"a\nb,c\rd\n"), inside);
    }

    #[test]
    fn letters_of_any_language_are_plain() {
        let text = "Küche, Líne 3, 網, e\u{301}, 🐟";
        assert_eq!(lines(text.as_bytes()).next(), Some(Ok(Line { number: 1, text })));
    }
}
