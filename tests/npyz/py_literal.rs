//! Takes the place of the crate py_literal, to which npyz 0.9.1 hands a header's text and which is not part of npyz's sources: the values that npyz asks for, and a
//! parser of document 01's literal, written from its text. It is not py_literal's parser, so nothing is learned here of npyz about the faults 6 and 7.
use num_bigint::BigInt;
use std::fmt;
use std::str::FromStr;

#[derive(Debug, Clone, PartialEq)]
pub enum Value {
    String(String),
    Integer(BigInt),
    Boolean(bool),
    None,
    Tuple(Vec<Value>),
    List(Vec<Value>),
    Dict(Vec<(Value, Value)>),
}

impl Value {
    pub fn as_string(&self) -> Option<&String> {
        match self {
            Value::String(text) => Some(text),
            _ => None,
        }
    }
}

/// Document 01's number of the fault, 6 or 7, and the place of its byte.
#[derive(Debug, Clone)]
pub struct ParseError(u8, usize);

impl fmt::Display for ParseError {
    fn fmt(&self, f: &mut fmt::Formatter) -> fmt::Result {
        write!(f, "{} at {}", self.0, self.1)
    }
}

impl std::error::Error for ParseError {}

impl FromStr for Value {
    type Err = ParseError;

    /// "The text is exactly one value."
    fn from_str(text: &str) -> Result<Value, ParseError> {
        let mut text = Text { bytes: text.as_bytes(), at: 0, open: 0 };
        let value = text.value()?;
        if text.next_token().is_some() {
            return text.fault();
        }
        Ok(value)
    }
}

struct Text<'a> {
    bytes: &'a [u8],
    at: usize,
    open: usize,
}

impl Text<'_> {
    fn fault<T>(&self) -> Result<T, ParseError> {
        Err(ParseError(6, self.at))
    }

    fn here(&self) -> Option<u8> {
        self.bytes.get(self.at).copied()
    }

    /// "Blanks are space, tab, LF, CR, allowed around any token": the byte after them.
    fn next_token(&mut self) -> Option<u8> {
        while let Some(b' ' | b'\t' | b'\n' | b'\r') = self.here() {
            self.at += 1;
        }
        self.here()
    }

    fn value(&mut self) -> Result<Value, ParseError> {
        match self.next_token() {
            Some(quote @ (b'\'' | b'"')) => self.string(quote),
            Some(b'-' | b'0'..=b'9') => self.integer(),
            Some(b'T') => self.word("True", Value::Boolean(true)),
            Some(b'F') => self.word("False", Value::Boolean(false)),
            Some(b'N') => self.word("None", Value::None),
            // "a bracket that may stand there would be the 33rd open"
            Some(b'[' | b'(' | b'{') if self.open == 32 => Err(ParseError(7, self.at)),
            Some(b'[') => Ok(Value::List(self.items(b']', Self::value)?.0)),
            // "one element needs its comma"
            Some(b'(') => match self.items(b')', Self::value)? {
                (items, false) if items.len() == 1 => Err(ParseError(6, self.at - 1)),
                (items, _) => Ok(Value::Tuple(items)),
            },
            Some(b'{') => Ok(Value::Dict(self.items(b'}', Self::pair)?.0)),
            _ => self.fault(),
        }
    }

    /// "no or more values parted by commas, optional last comma": the items, and whether a comma is after the last.
    fn items<T>(&mut self, close: u8, item: fn(&mut Self) -> Result<T, ParseError>) -> Result<(Vec<T>, bool), ParseError> {
        let (mut items, mut may_follow) = (vec![], true);
        self.at += 1;
        self.open += 1;
        loop {
            match self.next_token() {
                Some(byte) if byte == close => break,
                Some(b',') if !may_follow => {
                    self.at += 1;
                    may_follow = true;
                }
                _ if may_follow => {
                    items.push(item(self)?);
                    may_follow = false;
                }
                _ => return self.fault(),
            }
        }
        self.at += 1;
        self.open -= 1;
        Ok((items, may_follow))
    }

    fn pair(&mut self) -> Result<(Value, Value), ParseError> {
        let key = self.value()?;
        if self.next_token() != Some(b':') {
            return self.fault();
        }
        self.at += 1;
        Ok((key, self.value()?))
    }

    fn word(&mut self, word: &str, value: Value) -> Result<Value, ParseError> {
        for byte in word.bytes() {
            if self.here() != Some(byte) {
                return self.fault();
            }
            self.at += 1;
        }
        Ok(value)
    }

    /// "an optional `-`, then `0` or a nonzero digit with more digits": what may not follow a number is a fault of what follows.
    fn integer(&mut self) -> Result<Value, ParseError> {
        let start = self.at;
        if self.here() == Some(b'-') {
            self.at += 1;
        }
        match self.here() {
            Some(b'0') => self.at += 1,
            Some(b'1'..=b'9') => {
                while let Some(b'0'..=b'9') = self.here() {
                    self.at += 1;
                }
            }
            _ => return self.fault(),
        }
        Ok(Value::Integer(BigInt::parse_bytes(&self.bytes[start..self.at], 10).unwrap()))
    }

    /// "hold no raw LF or CR, and know the escapes `\\ \' \" \n \r \t` only"
    fn string(&mut self, quote: u8) -> Result<Value, ParseError> {
        let mut held = vec![];
        loop {
            self.at += 1;
            match self.here() {
                Some(byte) if byte == quote => break,
                None | Some(b'\n' | b'\r') => return self.fault(),
                Some(b'\\') => {
                    self.at += 1;
                    held.push(match self.here() {
                        Some(byte @ (b'\\' | b'\'' | b'"')) => byte,
                        Some(b'n') => b'\n',
                        Some(b'r') => b'\r',
                        Some(b't') => b'\t',
                        _ => return self.fault(),
                    });
                }
                Some(byte) => held.push(byte),
            }
        }
        self.at += 1;
        Ok(Value::String(String::from_utf8(held).unwrap()))
    }
}
