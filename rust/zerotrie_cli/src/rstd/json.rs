//! JSON as tokens with their places, and as values over the text that they were read from.
use super::alloc::{AllocError, AllocFailed, Allocator, Global};
use super::vec::Vec;
use std::mem;

/// How deep arrays and objects may nest.
pub const MAX_DEPTH: usize = 128;

/// Room for the strings that have escapes.
pub struct Scratch(std::vec::Vec<u8>);

impl Scratch {
    pub fn new<A: Allocator>(_: A) -> Self {
        Scratch(std::vec::Vec::new())
    }
}

#[derive(Clone, Copy)]
pub enum Token<'a> {
    BeginObject,
    EndObject,
    BeginArray,
    EndArray,
    Key(&'a str),
    String(&'a str),
    Number(&'a str),
    Bool(bool),
    Null,
    /// The text is no JSON from here on. No token follows.
    Bad,
}

#[derive(Clone, Copy, PartialEq)]
enum Place {
    Fresh,
    AfterComma,
    AfterValue,
    Failed,
}

/// The tokens of a text. It tests each of them, and the commas and colons, but not how brackets nest.
pub struct Reader<'a> {
    text: &'a str,
    at: usize,
    place: Place,
    room: &'a mut [u8],
}

impl<'a> Reader<'a> {
    pub fn new(text: &'a str, scratch: &'a mut Scratch) -> Result<Self, AllocError> {
        scratch.0.try_reserve(text.len())?;
        scratch.0.resize(text.len(), 0);
        let mut reader = Reader { text, at: 0, place: Place::Fresh, room: &mut scratch.0 };
        reader.pass(0);
        Ok(reader)
    }

    /// Returns where the next token begins, which may be a bad one.
    pub fn offset(&self) -> usize {
        self.at
    }

    pub fn next(&mut self) -> Option<Token<'a>> {
        let may_begin = matches!(self.place, Place::Fresh | Place::AfterComma);
        let may_close = matches!(self.place, Place::Fresh | Place::AfterValue);
        let token = match self.text.as_bytes().get(self.at) {
            _ if self.place == Place::Failed => return None,
            None if may_close => return None,
            Some(b'}') if may_close => self.passed(1, Token::EndObject),
            Some(b']') if may_close => self.passed(1, Token::EndArray),
            Some(b'{') if may_begin => self.passed(1, Token::BeginObject),
            Some(b'[') if may_begin => self.passed(1, Token::BeginArray),
            Some(b'"') if may_begin => self.string(),
            Some(_) if may_begin => self.word(),
            _ => None,
        };
        self.place = match token {
            None => Place::Failed,
            Some(Token::BeginObject | Token::BeginArray) => Place::Fresh,
            Some(Token::Key(_)) if self.took(b':') => Place::Fresh,
            Some(_) if self.took(b',') => Place::AfterComma,
            Some(_) => Place::AfterValue,
        };
        token.or(Some(Token::Bad))
    }

    /// Passes bytes, and the blanks behind them.
    fn pass(&mut self, count: usize) {
        let is_blank = |byte: &&u8| matches!(byte, b' ' | b'\t' | b'\n' | b'\r');
        self.at += count;
        self.at += self.text.as_bytes()[self.at..].iter().take_while(is_blank).count();
    }

    fn passed(&mut self, count: usize, token: Token<'a>) -> Option<Token<'a>> {
        self.pass(count);
        Some(token)
    }

    fn took(&mut self, byte: u8) -> bool {
        let is_there = self.text.as_bytes().get(self.at) == Some(&byte);
        if is_there {
            self.pass(1);
        }
        is_there
    }

    fn string(&mut self) -> Option<Token<'a>> {
        let text = &self.text[self.at + 1..];
        let plain = plain_len(text);
        let string = if text.as_bytes().get(plain) == Some(&b'"') {
            self.pass(plain + 2);
            &text[..plain]
        } else {
            let (read, written) = unescape(text, self.room)?;
            let (string, room) = mem::take(&mut self.room).split_at_mut(written);
            self.room = room;
            self.pass(read + 2);
            str::from_utf8(string).ok()?
        };
        let is_key = self.text.as_bytes().get(self.at) == Some(&b':');
        Some(if is_key { Token::Key(string) } else { Token::String(string) })
    }

    fn word(&mut self) -> Option<Token<'a>> {
        let text = &self.text[self.at..];
        let names = [("true", Token::Bool(true)), ("false", Token::Bool(false)), ("null", Token::Null)];
        let (count, token) = match names.into_iter().find(|(name, _)| text.starts_with(name)) {
            Some((name, token)) => (name.len(), token),
            None => number_len(text.as_bytes()).map(|count| (count, Token::Number(&text[..count])))?,
        };
        let ends = text[count..].starts_with(['{', '}', '[', ']', ':', ',', ' ', '\t', '\n', '\r']) || count == text.len();
        if ends { self.passed(count, token) } else { None }
    }
}

/// Returns how many bytes of a string are before its end, an escape or a byte that it can't have.
fn plain_len(text: &str) -> usize {
    text.bytes().position(|byte| matches!(byte, b'"' | b'\\' | 0..=31)).unwrap_or(text.len())
}

/// Returns how long the number is that a text begins with.
fn number_len(text: &[u8]) -> Option<usize> {
    let has = |at: usize, bytes: &[u8]| text.get(at).is_some_and(|byte| bytes.contains(byte));
    let digits = |at: usize| Some(text[at..].iter().take_while(|byte| byte.is_ascii_digit()).count()).filter(|count| *count > 0);
    let mut at = usize::from(has(0, b"-"));
    at += if has(at, b"0") { 1 } else { digits(at)? };
    if has(at, b".") {
        at += 1 + digits(at + 1)?;
    }
    if has(at, b"eE") {
        at += 1 + usize::from(has(at + 1, b"+-"));
        at += digits(at)?;
    }
    Some(at)
}

/// Writes what a string is. Returns how many bytes were read before its quote, and how many written.
fn unescape(text: &str, room: &mut [u8]) -> Option<(usize, usize)> {
    let (mut read, mut written) = (0, 0);
    loop {
        let plain = plain_len(&text[read..]);
        room[written..written + plain].copy_from_slice(&text.as_bytes()[read..read + plain]);
        read += plain;
        written += plain;
        match text.as_bytes().get(read)? {
            b'"' => return Some((read, written)),
            b'\\' => {
                let (letter, count) = escape(&text.as_bytes()[read + 1..])?;
                written += letter.encode_utf8(&mut room[written..]).len();
                read += 1 + count;
            }
            _ => return None,
        }
    }
}

/// Returns what is written by a backslash with these bytes behind it, and how many belong to it.
fn escape(text: &[u8]) -> Option<(char, usize)> {
    let letter = match text.first()? {
        b'b' => '\x08',
        b'f' => '\x0c',
        b'n' => '\n',
        b'r' => '\r',
        b't' => '\t',
        b'u' => return unicode(text),
        byte @ (b'"' | b'\\' | b'/') => char::from(*byte),
        _ => return None,
    };
    Some((letter, 1))
}

fn unicode(text: &[u8]) -> Option<(char, usize)> {
    let high = unit(text)?;
    if !(0xD800..0xDC00).contains(&high) {
        return Some((char::from_u32(high.into())?, 5));
    }
    let low = unit(text[5..].strip_prefix(b"\\")?)?;
    Some((char::decode_utf16([high, low]).next()?.ok()?, 11))
}

/// Returns the number of four hexadecimal digits behind a `u`.
fn unit(text: &[u8]) -> Option<u16> {
    let digits = text.strip_prefix(b"u")?.first_chunk::<4>()?;
    digits.iter().try_fold(0, |number, digit| Some(number * 16 + char::from(*digit).to_digit(16)? as u16))
}

pub enum Error {
    Invalid,
    OutOfMemory,
}

impl<T> From<AllocFailed<T>> for Error {
    fn from(_: AllocFailed<T>) -> Self {
        Error::OutOfMemory
    }
}

pub enum Value<'a> {
    Null,
    Bool(bool),
    Number(&'a str),
    String(&'a str),
    Array(Vec<Value<'a>>),
    Object(Vec<(&'a str, Value<'a>)>),
}

impl<'a> Value<'a> {
    /// Reads the next value. Arrays and objects may nest so deep in it.
    pub fn read(alloc: Global, reader: &mut Reader<'a>, depth: usize) -> Result<Self, Error> {
        let token = reader.next();
        Value::beginning(alloc, reader, depth, token)
    }

    /// Reads the value that begins with this token.
    fn beginning(alloc: Global, reader: &mut Reader<'a>, depth: usize, token: Option<Token<'a>>) -> Result<Self, Error> {
        match token {
            Some(Token::String(text)) => Ok(Value::String(text)),
            Some(Token::Number(text)) => Ok(Value::Number(text)),
            Some(Token::Bool(is_true)) => Ok(Value::Bool(is_true)),
            Some(Token::Null) => Ok(Value::Null),
            Some(Token::BeginArray) if depth > 0 => {
                let mut items = Vec::new(alloc);
                loop {
                    match reader.next() {
                        Some(Token::EndArray) => return Ok(Value::Array(items)),
                        token => items.push(Value::beginning(alloc, reader, depth - 1, token)?)?,
                    }
                }
            }
            Some(Token::BeginObject) if depth > 0 => {
                let mut members = Vec::new(alloc);
                loop {
                    match reader.next() {
                        Some(Token::Key(key)) => members.push((key, Value::read(alloc, reader, depth - 1)?))?,
                        Some(Token::EndObject) => return Ok(Value::Object(members)),
                        _ => return Err(Error::Invalid),
                    }
                }
            }
            _ => Err(Error::Invalid),
        }
    }

    pub fn as_number(&self) -> Option<&'a str> {
        if let Value::Number(text) = self { Some(text) } else { None }
    }

    pub fn as_str(&self) -> Option<&'a str> {
        if let Value::String(text) = self { Some(text) } else { None }
    }

    /// Returns the last member of this name.
    pub fn get(&self, name: &str) -> Option<&Value<'a>> {
        let Value::Object(members) = self else { return None };
        members.iter().rfind(|(key, _)| *key == name).map(|(_, value)| value)
    }
}
