// Made from crates/zerotrie_queries/src/json_text.rt by rust/make: edit that.
//! Keys and pairs as JSON, each added to a buffer.

use crate::rstd::prelude::*;
use crate::zerotrie_queries::text::is_text;
use crate::rstd::alloc::AllocError;
use crate::zerotrie_lines::{write_number, write_quoted};

/// Adds a comma unless the item is the first.
pub fn add_comma(text: &mut Vec<u8>, later: bool) -> Result<(), AllocError> {
    if later {
        text.push(b',')?;
    }
    Ok(())
}

/// Adds bytes as a list of numbers.
fn add_bytes(text: &mut Vec<u8>, bytes: &[u8]) -> Result<(), AllocError> {
    text.push(b'[')?;
    let mut later = false;
    for byte in bytes {
        add_comma(text, later)?;
        write_number(text, *byte as usize)?;
        later = true;
    }
    text.push(b']')?;
    Ok(())
}

/// Adds a key: a string if it is UTF-8, and else a list of its bytes.
fn add_key(text: &mut Vec<u8>, key: &[u8]) -> Result<(), AllocError> {
    if is_text(key) {
        write_quoted(text, key)
    } else {
        add_bytes(text, key)
    }
}

/// Adds a pair as a list of its key and its value.
pub fn add_pair_json(text: &mut Vec<u8>, key: &[u8], value: usize) -> Result<(), AllocError> {
    text.push(b'[')?;
    add_key(text, key)?;
    text.push(b',')?;
    write_number(text, value)?;
    text.push(b']')?;
    Ok(())
}

/// Adds a pair as a member of an object.
pub fn add_member(text: &mut Vec<u8>, key: &[u8], value: usize) -> Result<(), AllocError> {
    write_quoted(text, key)?;
    text.push(b':')?;
    write_number(text, value)
}
