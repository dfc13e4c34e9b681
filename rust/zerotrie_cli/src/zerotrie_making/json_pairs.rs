// Made from crates/zerotrie_making/src/json_pairs.rt by rust/make: edit that.
//! The pairs in a JSON value.

use crate::rstd::prelude::*;
use crate::zerotrie_making::error::{MakeError, NoPair};
use crate::zerotrie_making::json_places::{not_json, why_no_json};
use crate::rstd::json::{Error, MAX_DEPTH, Reader, Scratch, Value};
use crate::rstd::alloc::{AllocError, Global};
use crate::zerotrie_any::JsonError;
use crate::zerotrie_lines::{Table, parse_number, without_mark};

/// Returns the items, if the value is a list.
fn items_of<'v, 'a>(value: &'v Value<'a>) -> Option<&'v [Value<'a>]> {
    match value {
        Value::Array(items) => Some(items.as_slice()),
        _ => None,
    }
}

/// Returns the members, if the value is an object.
fn members_of<'v, 'a>(value: &'v Value<'a>) -> Option<&'v [(&'a str, Value<'a>)]> {
    match value {
        Value::Object(members) => Some(members.as_slice()),
        _ => None,
    }
}

/// Returns the whole number in a value.
pub(in crate::zerotrie_making) fn number_of(value: &Value<'_>) -> Option<usize> {
    parse_number(value.as_number()?.as_bytes())
}

/// Returns the byte in a value.
fn byte_of(value: &Value<'_>) -> Option<u8> {
    let number = number_of(value)?;
    if number < 256 {
        Some(number as u8)
    } else {
        None
    }
}

/// Returns the bytes in the items of a list.
fn bytes_of(alloc: Global, items: &[Value<'_>]) -> Result<Vec<u8>, JsonError> {
    let mut bytes = Vec::new(alloc);
    for item in items {
        let Some(byte) = byte_of(item) else {
            return Err(JsonError::Shape);
        };
        bytes.push(byte)?;
    }
    Ok(bytes)
}

/// Returns the key in a value: a text, or a list of bytes.
pub(in crate::zerotrie_making) fn key_of(alloc: Global, value: &Value<'_>) -> Result<Vec<u8>, JsonError> {
    if let Some(text) = value.as_str() {
        return Ok(Vec::from_slice(alloc, text.as_bytes())?);
    }
    match items_of(value) {
        Some(items) => bytes_of(alloc, items),
        None => Err(JsonError::Shape),
    }
}

/// Returns the pair in a value, which is a list of exactly two.
pub(in crate::zerotrie_making) fn pair_of(alloc: Global, value: &Value<'_>) -> Result<(Vec<u8>, usize), JsonError> {
    let Some(items) = items_of(value) else {
        return Err(JsonError::Shape);
    };
    if items.len() != 2 {
        return Err(JsonError::Shape);
    }
    let Some(number) = number_of(&items[1]) else {
        return Err(JsonError::Shape);
    };
    let key = key_of(alloc, &items[0])?;
    Ok((key, number))
}

/// Returns the pairs in the items of a list.
fn pairs_of_list(alloc: Global, items: &[Value<'_>]) -> Result<Table, JsonError> {
    let mut table = Table::new(alloc);
    for item in items {
        let (key, value) = pair_of(alloc, item)?;
        table.push(key.as_slice(), value)?;
    }
    Ok(table)
}

/// Returns the pairs in the members of an object, in their order.
fn pairs_of_members(alloc: Global, members: &[(&str, Value<'_>)]) -> Result<Table, JsonError> {
    let mut table = Table::new(alloc);
    for (key, value) in members {
        let Some(number) = number_of(value) else {
            return Err(JsonError::Shape);
        };
        table.push(key.as_bytes(), number)?;
    }
    Ok(table)
}

/// Returns the pairs in a value.
fn pairs_of(alloc: Global, value: &Value<'_>) -> Result<Table, JsonError> {
    if let Some(members) = members_of(value) {
        return pairs_of_members(alloc, members);
    }
    match items_of(value) {
        Some(items) => pairs_of_list(alloc, items),
        None => Err(JsonError::Shape),
    }
}

/// Returns the number of the first item that is no pair, from 1 on.
fn first_item(alloc: Global, items: &[Value<'_>]) -> Result<Option<usize>, AllocError> {
    for (index, item) in items.iter().enumerate() {
        match pair_of(alloc, item) {
            Ok(_) => {}
            Err(JsonError::Shape) => return Ok(Some(index + 1)),
            Err(_) => return Err(AllocError),
        }
    }
    Ok(None)
}

/// Returns the name of the first member whose value is no whole number.
fn first_member<'a>(members: &[(&'a str, Value<'a>)]) -> Option<&'a str> {
    for (key, value) in members {
        if number_of(value).is_none() {
            return Some(*key);
        }
    }
    None
}

/// Returns the first member or item of a value that is no pair. `None` if the value has none.
fn first_bad(alloc: Global, value: &Value<'_>) -> Result<Option<NoPair>, AllocError> {
    if let Some(members) = members_of(value) {
        return match first_member(members) {
            Some(key) => Ok(Some(NoPair::Member(Vec::from_slice(alloc, key.as_bytes())?))),
            None => Ok(None),
        };
    }
    match items_of(value) {
        Some(items) => Ok(first_item(alloc, items)?.map(NoPair::Item)),
        None => Ok(None),
    }
}

/// Reads the JSON value of a text.
pub(in crate::zerotrie_making) fn value_of<'a>(
    alloc: Global,
    text: &'a str,
    scratch: &'a mut Scratch,
) -> Result<Value<'a>, MakeError> {
    let mut reader = Reader::new(text, scratch)?;
    match Value::read(alloc, &mut reader, MAX_DEPTH) {
        Ok(value) => {
            if reader.next().is_some() {
                return Err(why_no_json(alloc, text)?);
            }
            Ok(value)
        }
        Err(Error::OutOfMemory) => Err(MakeError::OutOfMemory),
        Err(_) => Err(why_no_json(alloc, text)?),
    }
}

/// Reads the pairs in the JSON value of an input.
pub(in crate::zerotrie_making) fn read_json(alloc: Global, input: &[u8]) -> Result<Table, MakeError> {
    let bytes = without_mark(input);
    let text = match crate::rstd::str::from_utf8(bytes) {
        Ok(text) => text,
        Err(error) => return Err(not_json(bytes, error.valid_up_to())),
    };
    let mut scratch = Scratch::new(alloc);
    let value = value_of(alloc, text, &mut scratch)?;
    match pairs_of(alloc, &value) {
        Ok(table) => Ok(table),
        Err(JsonError::Shape) => Err(match first_bad(alloc, &value)? {
            Some(bad) => MakeError::NotPair(bad),
            None => MakeError::NotPairs,
        }),
        Err(_) => Err(MakeError::OutOfMemory),
    }
}
