//! A strict reader of JSON, as small as will do. What it cannot read fails the test.

use std::iter::Peekable;
use std::str::Chars;

/// A value. Numbers stay as they are written, and keys in their order.
#[derive(Debug, Clone, PartialEq, Eq)]
pub enum Json {
    Null,
    Bool(bool),
    Number(String),
    Text(String),
    Array(Vec<Json>),
    Object(Vec<(String, Json)>),
}

/// The one value that this line holds.
#[track_caller]
pub fn read(line: &str) -> Json {
    let text = line.strip_suffix('\n').expect("one line");
    let mut reader = Reader(text.chars().peekable());
    let value = reader.value();
    assert_eq!(reader.0.next(), None, "more after the value in {text}");
    value
}

impl Json {
    /// The value of this key.
    #[track_caller]
    pub fn get(&self, key: &str) -> &Json {
        self.find(key).unwrap_or_else(|| panic!("no {key} in {self:?}"))
    }

    /// The value of this key, if there is one.
    pub fn find(&self, key: &str) -> Option<&Json> {
        let Json::Object(fields) = self else { panic!("no object: {self:?}") };
        fields.iter().find(|(name, _)| name == key).map(|(_, value)| value)
    }

    pub fn keys(&self) -> Vec<&str> {
        let Json::Object(fields) = self else { panic!("no object: {self:?}") };
        fields.iter().map(|(name, _)| name.as_str()).collect()
    }

    pub fn text(&self) -> &str {
        let Json::Text(text) = self else { panic!("no text: {self:?}") };
        text
    }

    pub fn items(&self) -> &[Json] {
        let Json::Array(items) = self else { panic!("no array: {self:?}") };
        items
    }

    /// The whole number, or nothing where there is null.
    pub fn whole(&self) -> Option<u32> {
        match self {
            Json::Null => None,
            Json::Number(number) => Some(number.parse().expect("a whole number")),
            _ => panic!("no number: {self:?}"),
        }
    }
}

struct Reader<'a>(Peekable<Chars<'a>>);

impl Reader<'_> {
    fn value(&mut self) -> Json {
        match self.0.peek().expect("a value") {
            '{' => Json::Object(self.list('{', '}', |reader| {
                let key = reader.text();
                reader.word(":");
                (key, reader.value())
            })),
            '[' => Json::Array(self.list('[', ']', Reader::value)),
            '"' => Json::Text(self.text()),
            'n' => self.word("null").then(Json::Null),
            't' => self.word("true").then(Json::Bool(true)),
            'f' => self.word("false").then(Json::Bool(false)),
            _ => Json::Number(self.number()),
        }
    }

    fn word(&mut self, word: &str) -> Then {
        for c in word.chars() {
            assert_eq!(self.0.next(), Some(c), "{word} expected");
        }
        Then
    }

    fn list<T>(&mut self, open: char, close: char, item: fn(&mut Self) -> T) -> Vec<T> {
        assert_eq!(self.0.next(), Some(open));
        let mut items = Vec::new();
        if self.0.next_if_eq(&close).is_some() {
            return items;
        }
        loop {
            items.push(item(self));
            match self.0.next() {
                Some(',') => (),
                end => {
                    assert_eq!(end, Some(close));
                    return items;
                }
            }
        }
    }

    fn text(&mut self) -> String {
        assert_eq!(self.0.next(), Some('"'));
        let mut text = String::new();
        loop {
            match self.0.next().expect("the end of a text") {
                '"' => return text,
                '\\' => text.push(self.escaped()),
                c => {
                    assert!(c >= ' ', "a bare control character");
                    text.push(c);
                }
            }
        }
    }

    fn escaped(&mut self) -> char {
        match self.0.next() {
            Some(c @ ('"' | '\\' | '/')) => c,
            Some('n') => '\n',
            Some('r') => '\r',
            Some('t') => '\t',
            Some('u') => {
                let digits: String = self.0.by_ref().take(4).collect();
                let code = u32::from_str_radix(&digits, 16).expect("four digits");
                char::from_u32(code).expect("a character")
            }
            other => panic!("\\{other:?} in a text"),
        }
    }

    /// Digits without a zero before them, and decimals after a point.
    fn number(&mut self) -> String {
        let mut number = String::new();
        while let Some(c) = self.0.next_if(|c| c.is_ascii_digit() || *c == '.') {
            number.push(c);
        }
        let (whole, decimals) = number.split_once('.').unwrap_or((&number, "0"));
        assert!(whole == "0" || !whole.is_empty() && !whole.starts_with('0'), "{number}");
        assert!(!decimals.is_empty() && !decimals.contains('.'), "{number}");
        number
    }
}

/// What follows a word that was there.
struct Then;

impl Then {
    fn then(self, value: Json) -> Json {
        value
    }
}
