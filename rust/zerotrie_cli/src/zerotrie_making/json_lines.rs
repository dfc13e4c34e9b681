// Made from crates/zerotrie_making/src/json_lines.rt by rust/make: edit that.
//! The pairs in lines of JSON.

use crate::rstd::prelude::*;
use crate::zerotrie_making::error::{MakeError, NoPair};
use crate::zerotrie_making::json_pairs::{key_of, number_of, pair_of, value_of};
use crate::rstd::json::{Scratch, Value};
use crate::rstd::alloc::{AllocError, Global};
use crate::zerotrie_any::JsonError;
use crate::zerotrie_lines::{LineEnd, Names, Table, read_lines, without_mark};

/// Returns the pair in an object, whose members with these names have it.
fn named_pair_of(
    alloc: Global,
    names: Names<'_>,
    value: &Value<'_>,
) -> Result<(Vec<u8>, usize), JsonError> {
    let Some(key) = value.get(names.key) else {
        return Err(JsonError::Shape);
    };
    let Some(number) = value.get(names.value) else {
        return Err(JsonError::Shape);
    };
    let Some(number) = number_of(number) else {
        return Err(JsonError::Shape);
    };
    let key = key_of(alloc, key)?;
    Ok((key, number))
}

/// Returns the pair in the value of a line: a list of two, or such an object.
fn row_of(alloc: Global, names: Names<'_>, value: &Value<'_>) -> Result<(Vec<u8>, usize), JsonError> {
    match pair_of(alloc, value) {
        Ok(pair) => Ok(pair),
        Err(JsonError::Shape) => named_pair_of(alloc, names, value),
        Err(error) => Err(error),
    }
}

/// Returns the pair in a line.
fn pair_of_line(alloc: Global, names: Names<'_>, line: &[u8]) -> Result<(Vec<u8>, usize), JsonError> {
    let Ok(text) = crate::rstd::str::from_utf8(line) else {
        return Err(JsonError::Shape);
    };
    let mut scratch = Scratch::new(alloc);
    match value_of(alloc, text, &mut scratch) {
        Ok(value) => row_of(alloc, names, &value),
        Err(MakeError::OutOfMemory) => Err(JsonError::OutOfMemory),
        Err(_) => Err(JsonError::Shape),
    }
}

/// Returns the pairs in lines.
fn pairs_of_lines(alloc: Global, names: Names<'_>, lines: &[&[u8]]) -> Result<Table, JsonError> {
    let mut table = Table::new(alloc);
    for line in lines {
        let (key, value) = pair_of_line(alloc, names, line)?;
        table.push(key.as_slice(), value)?;
    }
    Ok(table)
}

/// Returns the number of the first line in which no pair is, from 1 on.
fn first_bad_line(
    alloc: Global,
    names: Names<'_>,
    lines: &[&[u8]],
) -> Result<Option<usize>, AllocError> {
    for (index, line) in lines.iter().enumerate() {
        match pair_of_line(alloc, names, line) {
            Ok(_) => {}
            Err(JsonError::Shape) => return Ok(Some(index + 1)),
            Err(_) => return Err(AllocError),
        }
    }
    Ok(None)
}

/// Reads the pairs in the lines of an input.
pub(in crate::zerotrie_making) fn read_json_lines(
    alloc: Global,
    names: Names<'_>,
    input: &[u8],
) -> Result<Table, MakeError> {
    let lines = read_lines(alloc, LineEnd::Lf, without_mark(input))?;
    match pairs_of_lines(alloc, names, lines.as_slice()) {
        Ok(table) => Ok(table),
        Err(JsonError::Shape) => Err(match first_bad_line(alloc, names, lines.as_slice())? {
            Some(number) => MakeError::NotPair(NoPair::Line(number)),
            None => MakeError::NotPairs,
        }),
        Err(_) => Err(MakeError::OutOfMemory),
    }
}
