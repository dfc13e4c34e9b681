// Made from crates/zerotrie_lines/src/lines.rt by rust/make: edit that.
//! Lines, and the pairs that they are.

use crate::rstd::prelude::*;
use crate::zerotrie_lines::copies::push_bytes;
use crate::zerotrie_lines::escapes::{unescape, write_escaped};
use crate::zerotrie_lines::fault::BadLine;
use crate::zerotrie_lines::numbers::parse_number;
use crate::zerotrie_lines::reading::LineEnd;
use crate::zerotrie_lines::table::Table;
use crate::zerotrie_lines::values::bad_value;
use crate::rstd::itoa::Buffer;
use crate::rstd::memchr::memchr;
use crate::rstd::alloc::{AllocError, Global};

/// Takes the first line off: the bytes before the first line feed, or all.
pub fn take_line<'a>(rest: &mut &'a [u8]) -> &'a [u8] {
    let all = *rest;
    match memchr(b'\n', all) {
        Some(place) => {
            *rest = &all[place + 1..];
            &all[..place]
        }
        None => {
            *rest = &[];
            all
        }
    }
}

/// Returns a line without the carriage return that may be at its end.
#[inline(always)]
fn without_return(line: &[u8]) -> &[u8] {
    let Some((last, front)) = line.split_last() else {
        return line;
    };
    if *last == b'\r' { front } else { line }
}

/// Takes the first line off, and returns it without what ends it.
#[inline(always)]
pub(in crate::zerotrie_lines) fn take_ended<'a>(end: LineEnd, rest: &mut &'a [u8]) -> &'a [u8] {
    let line = take_line(rest);
    match end {
        LineEnd::CrLf => without_return(line),
        LineEnd::Lf => line,
    }
}

/// Returns the lines of a text, each without what ends it. It allocates the list alone.
pub fn read_lines(alloc: Global, end: LineEnd, text: &[u8]) -> Result<Vec<&[u8]>, AllocError> {
    let mut lines = Vec::new(alloc);
    let mut rest = text;
    while !rest.is_empty() {
        lines.push(take_ended(end, &mut rest))?;
    }
    Ok(lines)
}

/// Adds the pair of a key, which may have escapes, and returns whether it is well-formed. `key` is
/// a buffer for the decoded bytes.
fn add_spelled(
    text: &[u8],
    value: usize,
    key: &mut Vec<u8>,
    table: &mut Table,
) -> Result<bool, AllocError> {
    match memchr(b'\\', text) {
        None => {
            table.push(text, value)?;
            Ok(true)
        }
        Some(_) => {
            if !unescape(text, key)? {
                return Ok(false);
            }
            table.push(key.as_slice(), value)?;
            Ok(true)
        }
    }
}

/// Adds the pair of a key, which is raw or may have escapes, and returns whether it is well-formed.
fn add_key(
    raw: bool,
    text: &[u8],
    value: usize,
    key: &mut Vec<u8>,
    table: &mut Table,
) -> Result<bool, AllocError> {
    if raw {
        table.push(text, value)?;
        return Ok(true);
    }
    add_spelled(text, value, key, table)
}

/// Returns why a line without a tab is no pair.
fn without_tab(raw: bool, line: &[u8]) -> BadLine {
    if line.is_empty() {
        BadLine::Empty
    } else {
        BadLine::NoTab
    }
}

/// Adds the pair of the text of a key and the digits of a value, or returns why they are none. `key` is
/// a buffer for a decoded key.
pub(in crate::zerotrie_lines) fn add_pair(
    alloc: Global,
    raw: bool,
    text: &[u8],
    digits: &[u8],
    key: &mut Vec<u8>,
    table: &mut Table,
) -> Result<Option<BadLine>, AllocError> {
    let Some(value) = parse_number(digits) else {
        return Ok(Some(BadLine::Value(bad_value(alloc, digits)?)));
    };
    if add_key(raw, text, value, key, table)? {
        Ok(None)
    } else {
        Ok(Some(BadLine::Escape))
    }
}

/// Adds the pair that a line is, or returns why it is none. `key` is a buffer for a decoded key.
pub(in crate::zerotrie_lines) fn read_pair(
    alloc: Global,
    raw: bool,
    line: &[u8],
    key: &mut Vec<u8>,
    table: &mut Table,
) -> Result<Option<BadLine>, AllocError> {
    let Some(place) = memchr(b'\t', line) else {
        return Ok(Some(without_tab(raw, line)));
    };
    add_pair(alloc, raw, &line[..place], &line[place + 1..], key, table)
}

/// Writes the line of a pair: the key with escapes, a tab, the value and a line feed.
///
/// The digits are formatted before the key is written, so that they are ready when they are copied.
pub fn write_pair(output: &mut Vec<u8>, key: &[u8], value: usize) -> Result<(), AllocError> {
    let mut buffer = Buffer::new();
    let digits = buffer.format(value).as_bytes();
    write_escaped(output, key)?;
    output.push(b'\t')?;
    push_bytes(output, digits)?;
    output.push(b'\n')?;
    Ok(())
}
