//! JSON, read as values.
use crate::value::Value;
use std::collections::BTreeMap;
use std::fmt;
use std::str::FromStr;

/// How deep JSON may nest.
const LEVELS: usize = 126;

/// A text is no JSON, or nests deeper than 126 levels.
#[derive(Clone, Copy, Debug, PartialEq, Eq)]
pub struct NoJson {
    /// The byte at which that was seen.
    pub at: usize,
}

impl fmt::Display for NoJson {
    fn fmt(&self, f: &mut fmt::Formatter<'_>) -> fmt::Result {
        write!(f, "no JSON at byte {}", self.at)
    }
}

impl std::error::Error for NoJson {}

impl FromStr for Value {
    type Err = NoJson;

    fn from_str(text: &str) -> Result<Value, NoJson> {
        let mut reader = Reader { text, at: 0 };
        let value = reader.value(LEVELS)?;
        reader.pass_spaces();
        if reader.at < text.len() {
            return Err(reader.refused());
        }
        Ok(value)
    }
}

struct Reader<'text> {
    text: &'text str,
    at: usize,
}

impl Reader<'_> {
    fn refused(&self) -> NoJson {
        NoJson { at: self.at }
    }

    fn next(&self) -> Option<u8> {
        self.text.as_bytes().get(self.at).copied()
    }

    fn pass_spaces(&mut self) {
        while matches!(self.next(), Some(b' ' | b'\t' | b'\n' | b'\r')) {
            self.at += 1;
        }
    }

    // Passes the byte, if it is the next one behind spaces.
    fn passes(&mut self, byte: u8) -> bool {
        self.pass_spaces();
        let is_there = self.next() == Some(byte);
        self.at += usize::from(is_there);
        is_there
    }

    fn expect(&mut self, byte: u8) -> Result<(), NoJson> {
        if self.passes(byte) { Ok(()) } else { Err(self.refused()) }
    }

    fn value(&mut self, levels: usize) -> Result<Value, NoJson> {
        self.pass_spaces();
        match self.next() {
            Some(b'"') => Ok(Value::Text(self.string()?)),
            Some(b'[') if levels > 0 => self.list(levels - 1),
            Some(b'{') if levels > 0 => self.map(levels - 1),
            Some(b'-' | b'0'..=b'9') => self.number(),
            _ => self.word(),
        }
    }

    fn word(&mut self) -> Result<Value, NoJson> {
        for (word, value) in [("null", Value::None), ("true", Value::Bool(true)), ("false", Value::Bool(false))] {
            if self.text[self.at..].starts_with(word) {
                self.at += word.len();
                return Ok(value);
            }
        }
        Err(self.refused())
    }

    fn list(&mut self, levels: usize) -> Result<Value, NoJson> {
        self.expect(b'[')?;
        let mut items = Vec::new();
        if self.passes(b']') {
            return Ok(Value::List(items));
        }
        loop {
            items.push(self.value(levels)?);
            if self.passes(b']') {
                return Ok(Value::List(items));
            }
            self.expect(b',')?;
        }
    }

    fn map(&mut self, levels: usize) -> Result<Value, NoJson> {
        self.expect(b'{')?;
        let mut members = BTreeMap::new();
        if self.passes(b'}') {
            return Ok(Value::Map(members));
        }
        loop {
            self.pass_spaces();
            let name = self.string()?;
            self.expect(b':')?;
            members.insert(name, self.value(levels)?);
            if self.passes(b'}') {
                return Ok(Value::Map(members));
            }
            self.expect(b',')?;
        }
    }

    fn digits(&mut self) -> Result<usize, NoJson> {
        let start = self.at;
        while matches!(self.next(), Some(b'0'..=b'9')) {
            self.at += 1;
        }
        if self.at == start { Err(self.refused()) } else { Ok(self.at - start) }
    }

    fn number(&mut self) -> Result<Value, NoJson> {
        let start = self.at;
        self.at += usize::from(self.next() == Some(b'-'));
        let begins_with_zero = self.next() == Some(b'0');
        if self.digits()? > 1 && begins_with_zero {
            return Err(self.refused());
        }
        if self.next() == Some(b'.') {
            self.at += 1;
            self.digits()?;
        }
        if matches!(self.next(), Some(b'e' | b'E')) {
            self.at += 1;
            self.at += usize::from(matches!(self.next(), Some(b'+' | b'-')));
            self.digits()?;
        }
        Ok(Value::Number(self.text[start..self.at].to_owned()))
    }

    fn string(&mut self) -> Result<String, NoJson> {
        if self.next() != Some(b'"') {
            return Err(self.refused());
        }
        self.at += 1;
        let mut text = String::new();
        loop {
            let rest = &self.text[self.at..];
            let plain = rest.find(|c| matches!(c, '"' | '\\' | '\0'..='\x1f')).ok_or(self.refused())?;
            text.push_str(&rest[..plain]);
            self.at += plain;
            match self.next() {
                Some(b'"') => {
                    self.at += 1;
                    return Ok(text);
                }
                Some(b'\\') => {
                    self.at += 1;
                    text.push(self.escaped()?);
                }
                _ => return Err(self.refused()),
            }
        }
    }

    fn escaped(&mut self) -> Result<char, NoJson> {
        let escape = self.next().ok_or(self.refused())?;
        self.at += 1;
        Ok(match escape {
            b'"' | b'\\' | b'/' => char::from(escape),
            b'b' => '\x08',
            b'f' => '\x0c',
            b'n' => '\n',
            b'r' => '\r',
            b't' => '\t',
            b'u' => return self.character(),
            _ => return Err(self.refused()),
        })
    }

    // The character of a `\u`, or of two that are a pair.
    fn character(&mut self) -> Result<char, NoJson> {
        let first = self.unit()?;
        let second = if matches!(first, 0xd800..=0xdbff) && self.text[self.at..].starts_with("\\u") {
            self.at += 2;
            Some(self.unit()?)
        } else {
            None
        };
        let mut characters = char::decode_utf16([Some(first), second].into_iter().flatten());
        match (characters.next(), characters.next()) {
            (Some(Ok(c)), None) => Ok(c),
            _ => Err(self.refused()),
        }
    }

    fn unit(&mut self) -> Result<u16, NoJson> {
        let digits = self.text.get(self.at..self.at + 4).filter(|digits| digits.bytes().all(|b| b.is_ascii_hexdigit()));
        let unit = digits.and_then(|digits| u16::from_str_radix(digits, 16).ok()).ok_or(self.refused())?;
        self.at += 4;
        Ok(unit)
    }
}
