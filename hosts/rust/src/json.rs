//! JSON as configurations, blocks and replies have it: no fractions and no negative numbers, the members of an object in order.

use crate::error::Malformed;
use std::fmt;

type Result<T> = std::result::Result<T, Malformed>;

/// A list in a list in a list is the most that anything here needs.
const MOST_DEPTH: u32 = 16;

#[derive(Clone, Debug, Eq, PartialEq)]
pub enum Value {
    Null,
    Bool(bool),
    Number(u64),
    Text(String),
    List(Vec<Value>),
    Object(Vec<(String, Value)>),
}

impl Value {
    pub fn text(it: impl ToString) -> Value {
        Value::Text(it.to_string())
    }

    pub fn object<const N: usize>(entries: [(&str, Value); N]) -> Value {
        let entries = entries.map(|(name, value)| (name.to_owned(), value));
        Value::Object(entries.into())
    }

    pub fn get(&self, name: &str) -> Option<&Value> {
        self.entries()?
            .iter()
            .find_map(|(found, value)| (found == name).then_some(value))
    }

    pub fn entries(&self) -> Option<&[(String, Value)]> {
        match self {
            Value::Object(entries) => Some(entries),
            _ => None,
        }
    }

    pub fn as_number(&self) -> Option<u64> {
        match self {
            Value::Number(number) => Some(*number),
            _ => None,
        }
    }

    pub fn as_text(&self) -> Option<&str> {
        match self {
            Value::Text(text) => Some(text),
            _ => None,
        }
    }

    pub fn as_list(&self) -> Option<&[Value]> {
        match self {
            Value::List(items) => Some(items),
            _ => None,
        }
    }

    pub fn parse(text: &str) -> Result<Value> {
        let mut parser = Parser { rest: text };
        let value = parser.value(0)?;
        parser.blanks();
        if parser.rest.is_empty() {
            Ok(value)
        } else {
            Err(MALFORMED)
        }
    }
}

impl From<u64> for Value {
    fn from(number: u64) -> Value {
        Value::Number(number)
    }
}

impl<T: Into<Value>> FromIterator<T> for Value {
    fn from_iter<I: IntoIterator<Item = T>>(items: I) -> Value {
        Value::List(items.into_iter().map(Into::into).collect())
    }
}

/// Without blanks, and in ASCII: the spelling of Python's `json.dumps(.., separators=(",", ":"))`, so that a block has the same digest.
impl fmt::Display for Value {
    fn fmt(&self, out: &mut fmt::Formatter) -> fmt::Result {
        match self {
            Value::Null => out.write_str("null"),
            Value::Bool(truth) => write!(out, "{truth}"),
            Value::Number(number) => write!(out, "{number}"),
            Value::Text(text) => write_text(out, text),
            Value::List(items) => {
                out.write_str("[")?;
                for (at, item) in items.iter().enumerate() {
                    write!(out, "{}{item}", comma(at))?;
                }
                out.write_str("]")
            }
            Value::Object(entries) => {
                out.write_str("{")?;
                for (at, (name, value)) in entries.iter().enumerate() {
                    out.write_str(comma(at))?;
                    write_text(out, name)?;
                    write!(out, ":{value}")?;
                }
                out.write_str("}")
            }
        }
    }
}

fn comma(at: usize) -> &'static str {
    if at == 0 {
        ""
    } else {
        ","
    }
}

fn write_text(out: &mut fmt::Formatter, text: &str) -> fmt::Result {
    out.write_str("\"")?;
    for letter in text.chars() {
        match letter {
            '"' => out.write_str("\\\"")?,
            '\\' => out.write_str("\\\\")?,
            '\n' => out.write_str("\\n")?,
            '\r' => out.write_str("\\r")?,
            '\t' => out.write_str("\\t")?,
            '\u{8}' => out.write_str("\\b")?,
            '\u{c}' => out.write_str("\\f")?,
            ' '..='~' => write!(out, "{letter}")?,
            _ => {
                for unit in letter.encode_utf16(&mut [0; 2]) {
                    write!(out, "\\u{unit:04x}")?;
                }
            }
        }
    }
    out.write_str("\"")
}

const MALFORMED: Malformed = Malformed("JSON");

struct Parser<'a> {
    rest: &'a str,
}

impl<'a> Parser<'a> {
    fn blanks(&mut self) {
        self.rest = self.rest.trim_start_matches([' ', '\t', '\n', '\r']);
    }

    fn take(&mut self, word: &str) -> bool {
        match self.rest.strip_prefix(word) {
            Some(rest) => {
                self.rest = rest;
                true
            }
            None => false,
        }
    }

    fn need(&mut self, word: &str) -> Result<()> {
        if self.take(word) {
            Ok(())
        } else {
            Err(MALFORMED)
        }
    }

    fn letter(&mut self) -> Result<char> {
        let letter = self.rest.chars().next().ok_or(MALFORMED)?;
        self.rest = &self.rest[letter.len_utf8()..];
        Ok(letter)
    }

    fn value(&mut self, depth: u32) -> Result<Value> {
        if depth > MOST_DEPTH {
            return Err(MALFORMED);
        }
        self.blanks();
        if self.take("null") {
            return Ok(Value::Null);
        }
        if self.take("true") {
            return Ok(Value::Bool(true));
        }
        if self.take("false") {
            return Ok(Value::Bool(false));
        }
        if self.rest.starts_with('"') {
            return Ok(Value::Text(self.string()?));
        }
        if self.take("[") {
            let mut items = Vec::new();
            while self.has_more("]", items.is_empty())? {
                items.push(self.value(depth + 1)?);
            }
            return Ok(Value::List(items));
        }
        if self.take("{") {
            let mut entries = Vec::new();
            while self.has_more("}", entries.is_empty())? {
                self.blanks();
                let name = self.string()?;
                self.blanks();
                self.need(":")?;
                entries.push((name, self.value(depth + 1)?));
            }
            return Ok(Value::Object(entries));
        }
        self.number()
    }

    /// Whether another item follows in a list or object that this bracket ends.
    fn has_more(&mut self, end: &str, is_first: bool) -> Result<bool> {
        self.blanks();
        if self.take(end) {
            return Ok(false);
        }
        if !is_first {
            self.need(",")?;
        }
        Ok(true)
    }

    fn number(&mut self) -> Result<Value> {
        let is_digit = |letter: char| letter.is_ascii_digit();
        let length = self.rest.len() - self.rest.trim_start_matches(is_digit).len();
        let (digits, rest) = self.rest.split_at(length);
        self.rest = rest;
        if digits.len() > 1 && digits.starts_with('0') {
            return Err(MALFORMED);
        }
        digits.parse().map(Value::Number).map_err(|_| MALFORMED)
    }

    fn string(&mut self) -> Result<String> {
        self.need("\"")?;
        let mut text = String::new();
        loop {
            match self.letter()? {
                '"' => return Ok(text),
                '\\' => text.push(self.escape()?),
                '\0'..='\u{1f}' => return Err(MALFORMED),
                letter => text.push(letter),
            }
        }
    }

    fn escape(&mut self) -> Result<char> {
        Ok(match self.letter()? {
            letter @ ('"' | '\\' | '/') => letter,
            'n' => '\n',
            'r' => '\r',
            't' => '\t',
            'b' => '\u{8}',
            'f' => '\u{c}',
            'u' => {
                let first = self.unit()?;
                let mut units = vec![first];
                if (0xd800..0xdc00).contains(&first) {
                    self.need("\\u")?;
                    units.push(self.unit()?);
                }
                let text = String::from_utf16(&units).map_err(|_| MALFORMED)?;
                text.chars().next().ok_or(MALFORMED)?
            }
            _ => return Err(MALFORMED),
        })
    }

    fn unit(&mut self) -> Result<u16> {
        let digits = self.rest.get(..4).ok_or(MALFORMED)?;
        if !digits.bytes().all(|digit| digit.is_ascii_hexdigit()) {
            return Err(MALFORMED);
        }
        self.rest = &self.rest[4..];
        u16::from_str_radix(digits, 16).map_err(|_| MALFORMED)
    }
}

#[cfg(test)]
mod tests {
    #![allow(clippy::unwrap_used)]
    use super::*;

    #[test]
    fn text_and_back() {
        for text in [
            "null",
            "[true,false,0,18446744073709551615]",
            r#"{"a":[],"b":{},"c":[[1],"x"]}"#,
            r#""\"\\\n\r\t\b\f\u0000\u007f\u00e9\ud83d\ude00""#,
        ] {
            assert_eq!(Value::parse(text).unwrap().to_string(), text);
        }
        assert_eq!(
            Value::parse(" [ 1 , {\"a\" : 2} ]\n").unwrap().to_string(),
            r#"[1,{"a":2}]"#
        );
    }

    #[test]
    fn what_is_no_json_here() {
        let deep = "[".repeat(5000);
        for text in [
            "",
            "[1",
            "[1,]",
            "[,1]",
            "{\"a\"}",
            "01",
            "-1",
            "1.5",
            "18446744073709551616",
            "nul",
            "\"\\ud800\"",
            "\"\\u+123\"",
            "\"\n\"",
            "[] []",
            &deep,
        ] {
            assert!(Value::parse(text).is_err(), "{text:?}");
        }
    }

    #[test]
    fn entries_by_name() {
        let value = Value::parse(r#"{"a":1,"b":["x"]}"#).unwrap();
        assert_eq!(value.get("a").and_then(Value::as_number), Some(1));
        let list = value.get("b").and_then(Value::as_list).unwrap();
        assert_eq!(list[0].as_text(), Some("x"));
        assert_eq!(value.get("c"), None);
    }
}
