// Made from crates/zerotrie_queries/src/lookups/values.rt by rust/make: edit that.
//! The values of many keys.

use crate::rstd::prelude::*;
use crate::zerotrie_queries::print::add_value;
use crate::rstd::alloc::{AllocError, Global};
use crate::rstd::io;
use crate::rstd::io::Write;
use crate::zerotrie_core::{LookUps, TrieRef, ZeroTrieWithOptions, by_kind};
use crate::zerotrie_files::Noted;

/// The number of keys whose lines are written at once.
const BLOCK: usize = 4096;

/// Adds a line for each key, its value or `none`, and returns whether all are there.
fn add_values_as<K: ZeroTrieWithOptions>(
    lines: &mut Vec<u8>,
    bytes: &[u8],
    keys: &[&[u8]],
) -> Result<bool, AllocError> {
    let mut trie = LookUps::<K>::new(bytes);
    let mut all = true;
    for key in keys {
        let value = trie.get(key);
        all &= value.is_some();
        add_value(lines, value)?;
    }
    Ok(all)
}

/// Adds a line for each key, its value or `none`, and returns whether all are there.
fn add_values(lines: &mut Vec<u8>, trie: &TrieRef<'_>, keys: &[&[u8]]) -> Result<bool, AllocError> {
    by_kind!(trie.kind, add_values_as::<_>(lines, trie.bytes, keys))
}

/// Writes a line for each key, its value or `none`, and returns whether all are there. It writes
/// many lines at once.
pub(in crate::zerotrie_queries) fn write_values<W: Write>(
    alloc: Global,
    trie: &TrieRef<'_>,
    keys: &[&[u8]],
    output: &mut Noted<W>,
) -> io::Result<bool> {
    let mut lines = Vec::new(alloc);
    let mut all = true;
    let mut begin = 0;
    while begin < keys.len() {
        let (_, left) = keys.split_at(begin);
        let (block, _) = left.split_at(left.len().min(BLOCK));
        lines.clear();
        all &= add_values(&mut lines, trie, block)?;
        output.write_bytes(lines.as_slice())?;
        begin += block.len();
    }
    Ok(all)
}
