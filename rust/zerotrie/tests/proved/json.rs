//! The text of JSON values, for the tests alone. Written by hand.
use super::alloc::{AllocError, Global};
pub use zerotrie::rstd::serde_json::*;

/// Text that is not JSON.
#[derive(Debug)]
pub struct Error;

impl std::fmt::Display for Error {
    fn fmt(&self, f: &mut std::fmt::Formatter<'_>) -> std::fmt::Result {
        f.write_str("not JSON")
    }
}

impl std::error::Error for Error {}

pub trait ValueText: Sized {
    fn from_str(alloc: Global, text: &str) -> Result<Self, Error>;
    fn to_string(&self, alloc: Global) -> Result<String, AllocError>;
}

impl ValueText for Value {
    fn from_str(_: Global, text: &str) -> Result<Value, Error> {
        let mut parser = Parser { rest: text };
        let value = parser.value()?;
        parser.skip_blanks();
        if parser.rest.is_empty() { Ok(value) } else { Err(Error) }
    }

    fn to_string(&self, _: Global) -> Result<String, AllocError> {
        Ok(text_of(self))
    }
}

fn text_of(value: &Value) -> String {
    match value {
        Value::Null => "null".into(),
        Value::Bool(it) => it.to_string(),
        Value::Number(Number::Whole(it)) => it.to_string(),
        Value::Number(Number::Other(it)) => it.to_string(),
        Value::String(it) => quoted(it),
        Value::Array(items) => format!("[{}]", items.iter().map(text_of).collect::<Vec<_>>().join(",")),
        Value::Object(members) => {
            let members = members.iter().map(|(name, value)| format!("{}:{}", quoted(name), text_of(value)));
            format!("{{{}}}", members.collect::<Vec<_>>().join(","))
        }
    }
}

fn quoted(text: &str) -> String {
    let escaped = text.chars().map(|c| match c {
        '"' | '\\' => format!("\\{c}"),
        '\n' => "\\n".into(),
        '\t' => "\\t".into(),
        c if c < ' ' => format!("\\u{:04x}", u32::from(c)),
        c => c.to_string(),
    });
    format!("\"{}\"", escaped.collect::<String>())
}

struct Parser<'a> {
    rest: &'a str,
}

impl Parser<'_> {
    fn skip_blanks(&mut self) {
        self.rest = self.rest.trim_start_matches([' ', '\n', '\t', '\r']);
    }

    fn take(&mut self, text: &str) -> bool {
        self.skip_blanks();
        let rest = self.rest.strip_prefix(text);
        self.rest = rest.unwrap_or(self.rest);
        rest.is_some()
    }

    fn value(&mut self) -> Result<Value, Error> {
        self.skip_blanks();
        if self.rest.starts_with('"') {
            return Ok(Value::String(self.string()?));
        } else if self.take("[") {
            let mut items = Vec::new();
            self.members("]", |parser| Ok(items.push(parser.value()?)))?;
            return Ok(Value::Array(items.into()));
        } else if self.take("{") {
            let mut members = std::collections::BTreeMap::new();
            self.members("}", |parser| parser.member(&mut members))?;
            return Ok(Value::Object(members.into()));
        }
        let end = self.rest.find([',', ']', '}', ' ', '\n']).unwrap_or(self.rest.len());
        let (word, rest) = self.rest.split_at(end);
        self.rest = rest;
        scalar(word).ok_or(Error)
    }

    fn member(&mut self, members: &mut std::collections::BTreeMap<String, Value>) -> Result<(), Error> {
        self.skip_blanks();
        let name = self.string()?;
        if !self.take(":") {
            return Err(Error);
        }
        members.insert(name, self.value()?);
        Ok(())
    }

    fn members(&mut self, end: &str, mut member: impl FnMut(&mut Self) -> Result<(), Error>) -> Result<(), Error> {
        if self.take(end) {
            return Ok(());
        }
        loop {
            member(self)?;
            if self.take(end) {
                return Ok(());
            } else if !self.take(",") {
                return Err(Error);
            }
        }
    }

    fn string(&mut self) -> Result<String, Error> {
        let mut text = String::new();
        let mut chars = self.rest.strip_prefix('"').ok_or(Error)?.chars();
        loop {
            match chars.next().ok_or(Error)? {
                '"' => break,
                '\\' => text.push(escaped(&mut chars).ok_or(Error)?),
                c if c < ' ' => return Err(Error),
                c => text.push(c),
            }
        }
        self.rest = chars.as_str();
        Ok(text)
    }
}

fn escaped(chars: &mut std::str::Chars<'_>) -> Option<char> {
    Some(match chars.next()? {
        'n' => '\n',
        't' => '\t',
        'r' => '\r',
        'b' => '\u{8}',
        'f' => '\u{c}',
        'u' => char::from_u32(u32::from_str_radix(&chars.by_ref().take(4).collect::<String>(), 16).ok()?)?,
        c @ ('"' | '\\' | '/') => c,
        _ => return None,
    })
}

fn scalar(word: &str) -> Option<Value> {
    let is_whole = word.bytes().all(|it| it.is_ascii_digit()) && (word == "0" || !word.starts_with('0'));
    Some(match word {
        "null" => Value::Null,
        "true" => Value::Bool(true),
        "false" => Value::Bool(false),
        _ => Value::Number(match word.parse() {
            Ok(number) if is_whole => Number::Whole(number),
            _ => Number::Other(word.parse().ok()?),
        }),
    })
}
