//! Values as literals of the script language, written and read.
use crate::{Error, Key, Value};
use std::fmt::Write;

/// How many arrays and maps stand one inside another at most.
const LEVELS: usize = 64;

/// The literal of a value.
pub(crate) fn literal_of(value: &Value) -> Result<String, Error> {
    let mut out = String::new();
    put(value, LEVELS, &mut out)?;
    Ok(out)
}

/// A text as it is written, with its quotes.
pub(crate) fn quoted(text: &str) -> String {
    let mut out = String::with_capacity(text.len() + 2);
    put_text(text, &mut out);
    out
}

/// Writes to a text, which takes everything.
macro_rules! say {
    ($out:expr, $($said:tt)*) => {
        write!($out, $($said)*).expect("a String takes all")
    };
}

/// Writes a literal in which so many levels are left.
fn put(value: &Value, levels: usize, out: &mut String) -> Result<(), Error> {
    match value {
        Value::Undefined => out.push_str("undefined"),
        Value::None => out.push_str("none"),
        Value::Bool(truth) => say!(out, "{truth}"),
        Value::U64(number) => say!(out, "{number}u64"),
        Value::I64(number) => say!(out, "{number}"),
        Value::U128(number) => say!(out, "{number}u128"),
        Value::I128(number) => say!(out, "{number}i128"),
        Value::Text(text) => put_text(text, out),
        Value::Safe(text) => {
            out.push('s');
            put_text(text, out);
        }
        Value::Bytes(bytes) => put_bytes(bytes, out),
        Value::Array(items) => put_array(items, inside(levels)?, out)?,
        Value::Map(pairs) => put_map(pairs, inside(levels)?, out)?,
    }
    Ok(())
}

/// How many levels are left inside one more.
fn inside(levels: usize) -> Result<usize, Error> {
    levels.checked_sub(1).ok_or(Error::TooDeep)
}

fn put_array(items: &[Value], levels: usize, out: &mut String) -> Result<(), Error> {
    out.push('[');
    for (place, item) in items.iter().enumerate() {
        if place > 0 {
            out.push_str(", ");
        }
        put(item, levels, out)?;
    }
    out.push(']');
    Ok(())
}

fn put_map(pairs: &[(Key, Value)], levels: usize, out: &mut String) -> Result<(), Error> {
    out.push('{');
    for (place, (key, value)) in pairs.iter().enumerate() {
        if place > 0 {
            out.push_str(", ");
        }
        put_key(key, out);
        out.push_str(": ");
        put(value, levels, out)?;
    }
    out.push('}');
    Ok(())
}

fn put_key(key: &Key, out: &mut String) {
    match key {
        Key::Bool(truth) => say!(out, "{truth}"),
        Key::U64(number) => say!(out, "{number}u64"),
        Key::I64(number) => say!(out, "{number}"),
        Key::U128(number) => say!(out, "{number}u128"),
        Key::I128(number) => say!(out, "{number}i128"),
        Key::Text(text) => put_text(text, out),
    }
}

fn put_text(text: &str, out: &mut String) {
    out.push('"');
    let mut rest = text;
    while let Some(place) = rest.find(|it| matches!(it, '"' | '\\' | '\0'..='\x1f' | '\x7f')) {
        let byte = rest.as_bytes()[place];
        out.push_str(&rest[..place]);
        match byte {
            b'"' | b'\\' => {
                out.push('\\');
                out.push(byte.into());
            }
            _ => say!(out, "\\u{{{byte:x}}}"),
        }
        rest = &rest[place + 1..];
    }
    out.push_str(rest);
    out.push('"');
}

fn put_bytes(bytes: &[u8], out: &mut String) {
    out.push_str("x\"");
    for byte in bytes {
        say!(out, "{byte:02x}");
    }
    out.push('"');
}

/// The value of a literal, and nothing where it is none.
pub(crate) fn value_of(literal: &str) -> Option<Value> {
    let mut reader = Reader { rest: literal };
    let value = reader.value()?;
    reader.rest.is_empty().then_some(value)
}

type Parse = fn(&str) -> Option<Key>;

/// The suffixes of numbers, and how a number of that kind is read. Without a suffix it is of the first that holds it.
const KINDS: [(&str, Parse); 4] = [
    ("i64", |number| number.parse().ok().map(Key::I64)),
    ("u64", |number| number.parse().ok().map(Key::U64)),
    ("i128", |number| number.parse().ok().map(Key::I128)),
    ("u128", |number| number.parse().ok().map(Key::U128)),
];

/// What is left of a literal that is read.
struct Reader<'a> {
    rest: &'a str,
}

impl<'a> Reader<'a> {
    fn value(&mut self) -> Option<Value> {
        match self.rest.as_bytes().first()? {
            b'[' => Some(Value::Array(self.parts('[', ']', Reader::value)?)),
            b'{' => Some(Value::Map(self.parts('{', '}', Reader::pair)?)),
            b's' => {
                self.take("s")?;
                Some(Value::Safe(self.text()?))
            }
            b'x' => Some(Value::Bytes(self.bytes()?)),
            b'u' => self.take("undefined").map(|()| Value::Undefined),
            b'n' => self.take("none").map(|()| Value::None),
            _ => self.key().map(Value::from),
        }
    }

    /// A truth value, a number or a text.
    fn key(&mut self) -> Option<Key> {
        match self.rest.as_bytes().first()? {
            b'"' => self.text().map(Key::Text),
            b't' => self.take("true").map(|()| Key::Bool(true)),
            b'f' => self.take("false").map(|()| Key::Bool(false)),
            _ => self.number(),
        }
    }

    fn number(&mut self) -> Option<Key> {
        let signed = self.rest.strip_prefix('-').unwrap_or(self.rest);
        let behind = signed.trim_start_matches(|it: char| it.is_ascii_digit());
        let number = &self.rest[..self.rest.len() - behind.len()];
        self.rest = behind;
        for (suffix, parse) in KINDS {
            if self.take(suffix).is_some() {
                return parse(number);
            }
        }
        KINDS.iter().find_map(|(_, parse)| parse(number))
    }

    fn text(&mut self) -> Option<String> {
        self.take("\"")?;
        let mut text = String::new();
        loop {
            let place = self.rest.find(['"', '\\'])?;
            text.push_str(&self.rest[..place]);
            let is_end = self.rest.as_bytes()[place] == b'"';
            self.rest = &self.rest[place + 1..];
            if is_end {
                return Some(text);
            }
            text.push(self.escape()?);
        }
    }

    /// The character of an escape, behind its backslash.
    fn escape(&mut self) -> Option<char> {
        let mut chars = self.rest.chars();
        let short = chars.next()?;
        self.rest = chars.as_str();
        match short {
            '"' | '\\' => Some(short),
            'n' => Some('\n'),
            'r' => Some('\r'),
            't' => Some('\t'),
            '0' => Some('\0'),
            'u' => {
                let (number, behind) = self.rest.strip_prefix('{')?.split_once('}')?;
                self.rest = behind;
                char::from_u32(u32::from_str_radix(number, 16).ok()?)
            }
            _ => None,
        }
    }

    fn bytes(&mut self) -> Option<Vec<u8>> {
        self.take("x\"")?;
        let (digits, behind) = self.rest.split_once('"')?;
        self.rest = behind;
        if digits.len() % 2 != 0 {
            return None;
        }
        let pairs = digits.as_bytes().chunks(2);
        let byte = |pair| u8::from_str_radix(std::str::from_utf8(pair).ok()?, 16).ok();
        pairs.map(byte).collect()
    }

    fn pair(&mut self) -> Option<(Key, Value)> {
        let key = self.key()?;
        self.sign(':')?;
        Some((key, self.value()?))
    }

    /// The parts between brackets, with commas between them.
    fn parts<T>(
        &mut self,
        open: char,
        end: char,
        part: impl Fn(&mut Reader<'a>) -> Option<T>,
    ) -> Option<Vec<T>> {
        self.sign(open)?;
        let mut parts = Vec::new();
        if self.sign(end).is_some() {
            return Some(parts);
        }
        loop {
            parts.push(part(self)?);
            if self.sign(end).is_some() {
                return Some(parts);
            }
            self.sign(',')?;
        }
    }

    /// Takes a sign, and the blanks on both sides of it.
    fn sign(&mut self, sign: char) -> Option<()> {
        let behind = self
            .rest
            .trim_start_matches([' ', '\t'])
            .strip_prefix(sign)?;
        // blanks behind the literal are no part of it
        self.rest = match sign {
            ']' | '}' => behind,
            _ => behind.trim_start_matches([' ', '\t']),
        };
        Some(())
    }

    fn take(&mut self, word: &str) -> Option<()> {
        self.rest = self.rest.strip_prefix(word)?;
        Some(())
    }
}

#[cfg(test)]
mod tests {
    use super::*;

    fn nested(levels: usize) -> Value {
        (1..levels).fold(Value::Array(vec![]), |inner, level| match level % 2 {
            0 => Value::Array(vec![inner]),
            _ => Value::map([("a", inner)]),
        })
    }

    #[test]
    fn a_literal_reads_back_as_the_value() {
        let every = Value::Array(vec![
            Value::Undefined,
            Value::None,
            Value::Bool(true),
            Value::U64(0),
            Value::I64(i64::MIN),
            Value::U128(u128::MAX),
            Value::I128(i128::MIN),
            Value::Text("a\"\\\n\r\t\0\x7f\u{e9}\u{1f600}".to_string()),
            Value::Safe("<b>".to_string()),
            Value::Bytes(vec![0, 255, 16]),
            Value::Array(vec![]),
            Value::map([(Key::Bool(false), 1), (Key::U64(0), 2), (Key::from("0"), 3)]),
        ]);
        let literal = literal_of(&every).unwrap();
        assert!(literal.chars().all(|it| !it.is_control()));
        assert_eq!(value_of(&literal), Some(every));
    }

    #[test]
    fn every_spelling_is_read() {
        let numbers = [
            ("007", Value::I64(7)),
            ("-0", Value::I64(0)),
            ("9223372036854775808", Value::U64(1 << 63)),
            ("18446744073709551616", Value::I128(1 << 64)),
            ("-9223372036854775809", Value::I128(-(1 << 63) - 1)),
            (
                "170141183460469231731687303715884105728",
                Value::U128(1 << 127),
            ),
            ("1u128", Value::U128(1)),
        ];
        for (literal, value) in numbers {
            assert_eq!(value_of(literal), Some(value), "{literal}");
        }
        let spaced = "[ 1\t,{ \"\\u{1F600}\\0\" :s\"a\" , true:x\"Ff\" } ,[ ]]";
        let map = Value::Map(vec![
            (Key::from("\u{1f600}\0"), Value::Safe("a".to_string())),
            (Key::Bool(true), Value::Bytes(vec![255])),
        ]);
        let read = Value::Array(vec![Value::I64(1), map, Value::Array(vec![])]);
        assert_eq!(value_of(spaced), Some(read));
    }

    #[test]
    fn what_is_no_literal_is_not_read() {
        let broken = [
            "",
            "[",
            "[1",
            "[1,",
            "[1 2]",
            "{1}",
            "{1:",
            "\"a",
            "\"\\q\"",
            "x\"f\"",
            "x\"fg\"",
            "1 2",
            "]",
            "nothing",
            "-",
            "-1u64",
            "1u32",
            "{none: 1}",
            "\"\\u{d800}\"",
            "1 ",
            "[] ",
        ];
        for literal in broken {
            assert_eq!(value_of(literal), None, "{literal}");
        }
    }

    #[test]
    fn a_level_too_many_is_refused() {
        assert!(literal_of(&nested(64)).is_ok());
        assert_eq!(literal_of(&nested(65)), Err(Error::TooDeep));
    }
}
