// Made from crates/zerotrie_queries/src/print.rt by rust/make: edit that.
//! The lines that are printed, each added to a buffer.

use crate::rstd::prelude::*;
use crate::zerotrie_queries::json_text::add_pair_json;
use crate::rstd::alloc::AllocError;
use crate::zerotrie_lines::{write_escaped, write_number, write_pair};

/// What the line of a pair is.
#[derive(Clone, Copy, PartialEq, Eq, Debug)]
pub enum Style {
    /// A key with escapes, a tab and its value.
    Tsv,
    /// A key as it is, a tab and its value. No key may have a tab or a line feed.
    TsvRaw,
    /// A key, a comma and its value. The key is in quotes unless all of its bytes are printable
    /// ASCII and none is a quotation mark or a comma.
    Csv,
    /// A JSON list of the key and its value. The key is a string, or a list of its bytes if it is
    /// not UTF-8.
    JsonLines,
    /// A key as it is.
    Keys,
    /// A value.
    Values,
}

/// How pairs are printed.
#[derive(Clone, Copy, PartialEq, Eq, Debug)]
pub enum Form {
    /// A line a pair.
    Lines(Style),
    /// A line a pair: the key with escapes, a tab, the value, a tab, and how many edits make the key of
    /// the word by which keys are sought. They are 0 if there is no word, if keys are not sought by
    /// edits, or if they need only begin with one that the word finds.
    Distances,
    /// One JSON object from key to value. Each key must be UTF-8.
    Json,
    /// A line that says how many there are.
    Count,
}

/// Adds a text to a line.
pub fn add_text(line: &mut Vec<u8>, text: &str) -> Result<(), AllocError> {
    line.extend_from_slice(text.as_bytes())
}

pub fn add_number_line(line: &mut Vec<u8>, number: usize) -> Result<(), AllocError> {
    write_number(line, number)?;
    line.push(b'\n')?;
    Ok(())
}

/// Adds the line of an answer: the value, or `none`.
pub fn add_value(line: &mut Vec<u8>, value: Option<usize>) -> Result<(), AllocError> {
    match value {
        Some(value) => add_number_line(line, value),
        None => line.extend_from_slice(b"none\n"),
    }
}

/// Adds the line of a key and its value, or `none`.
pub fn add_key_value(line: &mut Vec<u8>, key: &[u8], value: Option<usize>) -> Result<(), AllocError> {
    match value {
        Some(value) => write_pair(line, key, value),
        None => {
            write_escaped(line, key)?;
            line.extend_from_slice(b"\tnone\n")
        }
    }
}

/// Adds the line of a key that a text begins with, given its length and value.
pub fn add_front(
    line: &mut Vec<u8>,
    text: &[u8],
    len: usize,
    value: usize,
) -> Result<(), AllocError> {
    let (key, _) = text.split_at(len.min(text.len()));
    write_pair(line, key, value)
}

/// Adds the line of the longest key that a text begins with, given its length and value, or `none`.
pub fn add_found(
    line: &mut Vec<u8>,
    text: &[u8],
    found: Option<(usize, usize)>,
) -> Result<(), AllocError> {
    match found {
        Some((len, value)) => add_front(line, text, len, value),
        None => line.extend_from_slice(b"none\n"),
    }
}

/// Returns whether a field of CSV can have a byte without quotes.
fn is_csv_plain(byte: u8) -> bool {
    byte >= 32 && byte <= 126 && byte != b'"' && byte != b','
}

fn are_csv_plain(bytes: &[u8]) -> bool {
    for byte in bytes {
        if !is_csv_plain(*byte) {
            return false;
        }
    }
    true
}

/// Adds bytes with each quotation mark twice.
fn add_doubled(line: &mut Vec<u8>, bytes: &[u8]) -> Result<(), AllocError> {
    for byte in bytes {
        if *byte == b'"' {
            line.push(b'"')?;
        }
        line.push(*byte)?;
    }
    Ok(())
}

/// Adds a field of CSV, in quotes if it needs them.
fn add_csv_field(line: &mut Vec<u8>, key: &[u8]) -> Result<(), AllocError> {
    if are_csv_plain(key) {
        return line.extend_from_slice(key);
    }
    line.push(b'"')?;
    add_doubled(line, key)?;
    line.push(b'"')?;
    Ok(())
}

fn add_csv(line: &mut Vec<u8>, key: &[u8], value: usize) -> Result<(), AllocError> {
    add_csv_field(line, key)?;
    line.push(b',')?;
    add_number_line(line, value)
}

pub fn add_pair(
    line: &mut Vec<u8>,
    style: Style,
    key: &[u8],
    value: usize,
) -> Result<(), AllocError> {
    match style {
        Style::Tsv => write_pair(line, key, value),
        Style::TsvRaw => {
            line.extend_from_slice(key)?;
            line.push(b'\t')?;
            add_number_line(line, value)
        }
        Style::Csv => add_csv(line, key, value),
        Style::JsonLines => {
            add_pair_json(line, key, value)?;
            line.push(b'\n')?;
            Ok(())
        }
        Style::Keys => {
            line.extend_from_slice(key)?;
            line.push(b'\n')?;
            Ok(())
        }
        Style::Values => add_number_line(line, value),
    }
}

/// Adds the line of a pair and of how many edits make its key of a word.
pub fn add_edits(
    line: &mut Vec<u8>,
    key: &[u8],
    value: usize,
    edits: usize,
) -> Result<(), AllocError> {
    write_escaped(line, key)?;
    line.push(b'\t')?;
    write_number(line, value)?;
    line.push(b'\t')?;
    add_number_line(line, edits)
}
