// Made from crates/zerotrie_session/src/command.rt by rust/make: edit that.
//! Lines parsed into commands, and why a line is bad.

use crate::rstd::prelude::*;
use crate::rstd::alloc::{AllocError, Global};
use crate::zerotrie_all::{CursorOp, TrieKind};

/// A choice of a kind of trie, as a `kind` line names it.
#[derive(Clone, Copy, PartialEq, Eq, Debug)]
pub enum Choice {
    /// `simple`, `ignore`, `hash` or `ext`.
    Named(TrieKind),
    /// `auto`: `simple` if all keys are ASCII and there are fewer than 512, else `hash`.
    Auto,
}

/// A command.
#[derive(PartialEq, Eq, Debug)]
pub enum Request<'a> {
    Kind(Choice),
    Add { value: usize, key: &'a [u8] },
    Build,
    Query(&'a [u8]),
    List,
    Walk(Vec<CursorOp>),
}

/// Returns the number with one more digit at its end, or `None` if that is 2^64 or more.
fn with_digit(value: usize, digit: u8) -> Option<usize> {
    value.checked_mul(10)?.checked_add((digit - b'0') as usize)
}

/// Parses 1 to 20 decimal digits.
fn parse_number(digits: &[u8]) -> Result<usize, BadLine> {
    if digits.is_empty() {
        return Err(BadLine::NoValue);
    }
    if digits.len() > 20 {
        return Err(BadLine::TooManyDigits);
    }
    let mut value: usize = 0;
    for digit in digits {
        if !digit.is_ascii_digit() {
            return Err(BadLine::NoNumber);
        }
        let Some(more) = with_digit(value, *digit) else {
            return Err(BadLine::TooLarge);
        };
        value = more;
    }
    Ok(value)
}

fn first_space(text: &[u8]) -> Option<usize> {
    text.iter().position(|b| *b == b' ')
}

/// Returns the bytes before the first space, and those after it.
fn split_word(text: &[u8]) -> (&[u8], &[u8]) {
    match first_space(text) {
        Some(place) => (&text[..place], &text[place + 1..]),
        None => (text, &[]),
    }
}

/// Returns the key after the words, which is empty if nothing follows them.
fn key_behind<'a>(words: &[u8], line: &'a [u8]) -> Option<&'a [u8]> {
    let rest = line.strip_prefix(words)?;
    match rest.split_first() {
        None => Some(rest),
        Some((first, key)) => { if *first == b' ' { Some(key) } else { None } }
    }
}

/// Returns the number of a hexadecimal digit, in either case.
fn parse_digit(digit: u8) -> Option<u8> {
    let value = (digit as char).to_digit(16)?;
    Some(value as u8)
}

/// Parses two hexadecimal digits.
fn parse_byte(digits: &[u8]) -> Option<u8> {
    let [high, low] = digits else {
        return None;
    };
    let high = parse_digit(*high)?;
    let low = parse_digit(*low)?;
    Some(16 * high + low)
}

/// Parses a word as a call of a cursor.
fn parse_op(word: &[u8]) -> Option<CursorOp> {
    let (first, digits) = word.split_first()?;
    match *first {
        b's' => {
            let byte = parse_byte(digits)?;
            Some(CursorOp::Step(byte))
        }
        b't' if digits.is_empty() => Some(CursorOp::Take),
        b'p' => {
            let index = parse_number(digits).ok()?;
            Some(CursorOp::Probe(index))
        }
        _ => None,
    }
}

fn split_words(alloc: Global, text: &[u8]) -> Result<Vec<&[u8]>, AllocError> {
    text.split(|b| *b == b' ').collect_in(alloc)
}

/// Parses the words of a text as calls of a cursor. Returns `None` if one of them is none.
fn parse_ops(alloc: Global, text: &[u8]) -> Result<Option<Vec<CursorOp>>, AllocError> {
    let words = split_words(alloc, text)?;
    let mut ops = Vec::new(alloc);
    for word in &words {
        let Some(op) = parse_op(word) else {
            return Ok(None);
        };
        ops.push(op)?;
    }
    Ok(Some(ops))
}

/// Returns the choice with this name.
fn choice_named(name: &[u8]) -> Option<Choice> {
    if name == b"simple".as_slice() {
        Some(Choice::Named(TrieKind::Simple))
    } else if name == b"ignore".as_slice() {
        Some(Choice::Named(TrieKind::Ignore))
    } else if name == b"hash".as_slice() {
        Some(Choice::Named(TrieKind::Hash))
    } else if name == b"ext".as_slice() {
        Some(Choice::Named(TrieKind::Ext))
    } else if name == b"auto".as_slice() {
        Some(Choice::Auto)
    } else {
        None
    }
}

/// Parses the value and the key after the plus sign of a line.
fn parse_pair(text: &[u8]) -> Result<(usize, &[u8]), BadLine> {
    let (digits, key) = split_word(text);
    let value = parse_number(digits)?;
    Ok((value, key))
}

/// Parses a line that is not a walk.
fn parse_plain(line: &[u8]) -> Result<Request<'_>, BadLine> {
    if let Some(name) = line.strip_prefix(b"kind ") {
        match choice_named(name) {
            Some(choice) => Ok(Request::Kind(choice)),
            None => Err(BadLine::UnknownKind),
        }
    } else if let Some(text) = line.strip_prefix(b"+ ") {
        let (value, key) = parse_pair(text)?;
        Ok(Request::Add { value, key })
    } else if line == b"build".as_slice() {
        Ok(Request::Build)
    } else if line == b"list".as_slice() {
        Ok(Request::List)
    } else if let Some(key) = key_behind(b"?", line) {
        Ok(Request::Query(key))
    } else {
        Err(BadLine::NoCommand)
    }
}

/// Parses a line that does not end in a carriage return.
fn parse_line(alloc: Global, line: &[u8]) -> Result<Result<Request<'_>, BadLine>, AllocError> {
    match line.strip_prefix(b"walk ") {
        None => Ok(parse_plain(line)),
        Some(text) => match parse_ops(alloc, text)? {
            None => Ok(Err(BadLine::NoCall)),
            Some(ops) => Ok(Ok(Request::Walk(ops))),
        },
    }
}

/// Returns whether the line ends in a carriage return.
fn ends_in_return(line: &[u8]) -> bool {
    line.ends_with(b"\r")
}

/// Parses a line. If it ends in a carriage return, that is why it is bad.
pub fn parse(alloc: Global, line: &[u8]) -> Result<Result<Request<'_>, BadLine>, AllocError> {
    match parse_line(alloc, line)? {
        Ok(request) => Ok(Ok(request)),
        Err(_) if ends_in_return(line) => Ok(Err(BadLine::CarriageReturn)),
        Err(bad) => Ok(Err(bad)),
    }
}

/// Why a line ends the run. The text of each says what to change in the line.
///
/// ```text
/// kind simple
/// + 18446744073709551616 ad       // TooLarge: the value is not below 2^64
/// ```
#[derive(Clone, Copy, PartialEq, Eq, Debug)]
pub enum BadLine {
    /// It ends in a carriage return. This comes before any other reason.
    CarriageReturn,
    /// It is no command.
    NoCommand,
    /// No kind has this name.
    UnknownKind,
    /// The value is missing.
    NoValue,
    /// The value has a byte that is no decimal digit.
    NoNumber,
    /// The value has more than 20 digits, leading zeros included.
    TooManyDigits,
    /// The value is 2^64 or more.
    TooLarge,
    /// A word of a walk is no call.
    NoCall,
    /// A command before the first `kind` line.
    NoKind,
    /// A walk under `auto`.
    WalkUnderAuto,
}

impl core::fmt::Display for BadLine {
    #[inline]
    fn fmt(&self, f: &mut core::fmt::Formatter<'_>) -> core::fmt::Result {
        match self {
            Self::CarriageReturn => write!(f, "it ends in a carriage return: end lines in a line feed alone"),
            Self::NoCommand => write!(f, "it is none of: kind NAME, + VALUE KEY, build, ? KEY, list, walk CALLS"),
            Self::UnknownKind => write!(f, "the kind is none of: simple, ignore, hash, ext, auto"),
            Self::NoValue => write!(f, "there is no value: write + VALUE KEY, with one space between"),
            Self::NoNumber => write!(f, "the value is not a decimal number"),
            Self::TooManyDigits => write!(f, "the value has more than 20 digits"),
            Self::TooLarge => write!(f, "the value is not below 2^64"),
            Self::NoCall => write!(f, "a call is none of: sHH, t, pN, with one space between two"),
            Self::NoKind => write!(f, "no kind is chosen yet: begin with kind NAME"),
            Self::WalkUnderAuto => write!(f, "there is no walk under kind auto: choose another kind"),
        }
    }
}

impl core::error::Error for BadLine {}
