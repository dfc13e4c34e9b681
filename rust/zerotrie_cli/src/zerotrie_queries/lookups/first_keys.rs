// Made from crates/zerotrie_queries/src/lookups/first_keys.rt by rust/make: edit that.
//! The first keys of values.

use crate::rstd::prelude::*;
use crate::rstd::alloc::{AllocError, Global};
use crate::zerotrie_core::{Trie, TrieRef};
use crate::zerotrie_lines::{parse_number, write_escaped};
use crate::zerotrie_reverse::KeysByValue;

/// Returns the first key of a trie that has the value that a text is. It reads the pairs up to it.
fn key_by_scan(
    alloc: Global,
    trie: &TrieRef<'_>,
    text: &[u8],
) -> Result<Option<Vec<u8>>, AllocError> {
    let Some(value) = parse_number(text) else {
        return Ok(None);
    };
    match trie.first_key_of(alloc, value) {
        Ok(key) => Ok(key),
        Err(_) => Err(AllocError),
    }
}

/// Returns the first key in a table that has the value that a text is.
fn key_by_table(
    alloc: Global,
    table: &KeysByValue<'_>,
    text: &[u8],
) -> Result<Option<Vec<u8>>, AllocError> {
    let Some(value) = parse_number(text) else {
        return Ok(None);
    };
    table.first_key_of(alloc, value)
}

/// Adds the line of a key, or `none`, and returns whether there is one.
fn add_first_key(line: &mut Vec<u8>, key: Option<Vec<u8>>) -> Result<bool, AllocError> {
    match key {
        Some(key) => {
            write_escaped(line, key.as_slice())?;
            line.push(b'\n')?;
            Ok(true)
        }
        None => {
            line.extend_from_slice(b"none\n")?;
            Ok(false)
        }
    }
}

/// Adds the first key of a trie that has the value that a text is, or `none`. Returns whether there
/// is one.
pub(in crate::zerotrie_queries) fn add_key_by_scan(
    alloc: Global,
    line: &mut Vec<u8>,
    trie: &TrieRef<'_>,
    text: &[u8],
) -> Result<bool, AllocError> {
    let key = key_by_scan(alloc, trie, text)?;
    add_first_key(line, key)
}

/// Adds the first key in a table that has the value that a text is, or `none`. Returns whether there
/// is one.
pub(in crate::zerotrie_queries) fn add_key_by_table(
    alloc: Global,
    line: &mut Vec<u8>,
    table: &KeysByValue<'_>,
    text: &[u8],
) -> Result<bool, AllocError> {
    let key = key_by_table(alloc, table, text)?;
    add_first_key(line, key)
}
