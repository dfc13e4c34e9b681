// Made from crates/zerotrie_uses/src/stored.rt by rust/make: edit that.
//! Tries that are written and read again, and bytes from elsewhere.

use crate::rstd::prelude::*;
use crate::rstd::alloc::Global;
use crate::rstd::collections::BTreeMap;
use crate::zerotrie_all::dense::{ZeroAsciiDenseSparse2dTrieBorrowed, ZeroAsciiDenseSparse2dTrieOwned};
use crate::zerotrie_all::{
    JsonError, NotWellFormed, ZeroTrie, ZeroTrieBuildError, ZeroTrieSimpleAscii,
    json_keeps_the_pairs,
};

/// Returns the value of a key in bytes from elsewhere, by the map that they mean. Returns an error
/// exactly if they are malformed.
///
/// It does not allocate. Validate bytes once, and keep the trie for more look-ups.
pub fn find_in_bytes(bytes: &[u8], key: &[u8]) -> Result<Option<usize>, NotWellFormed> {
    let trie = ZeroTrieSimpleAscii::try_from_bytes(bytes)?;
    Ok(trie.get(key))
}

/// Looks a word up in a trie that was written as a JSON value and read again. The result is that of
/// the pairs, which are in ascending order.
pub fn find_in_json(
    alloc: Global,
    pairs: &[(&[u8], usize)],
    word: &[u8],
) -> Result<Option<usize>, JsonError> {
    let trie = ZeroTrieSimpleAscii::try_from_sorted_slice(alloc, pairs)?;
    let value = trie.to_json_value(alloc)?;
    json_keeps_the_pairs();
    let read = ZeroTrieSimpleAscii::try_from_json_value(alloc, &value)?;
    Ok(read.get(word))
}

/// Like `find_in_json`, for keys of any bytes. The trie's kind is chosen for the pairs.
pub fn find_in_json_of_any(
    alloc: Global,
    pairs: &[(&[u8], usize)],
    word: &[u8],
) -> Result<Option<usize>, JsonError> {
    let trie = ZeroTrie::try_from_sorted_slice(alloc, pairs)?;
    let value = trie.to_json_value(alloc)?;
    json_keeps_the_pairs();
    let read = ZeroTrie::try_from_json_value(alloc, &value)?;
    Ok(read.get(word))
}

/// Returns the entry of a prefix and a suffix, from the record of the rows' dense table, or `None`
/// exactly if the rows have no such entry.
///
/// The errors are those of `ZeroAsciiDenseSparse2dTrieOwned::try_from_btree_map_str` with the
/// delimiter `/`. Reading the record of a table that was built returns no error.
pub fn entry_in_record(
    alloc: Global,
    rows: &BTreeMap<&str, BTreeMap<&str, usize>>,
    prefix: &str,
    suffix: &str,
) -> Result<Option<usize>, ZeroTrieBuildError> {
    let table = ZeroAsciiDenseSparse2dTrieOwned::try_from_btree_map_str(alloc, rows, b'/')?;
    let record = table.as_borrowed().to_record_bytes(alloc)?;
    match ZeroAsciiDenseSparse2dTrieBorrowed::try_from_record_bytes(record.as_slice()) {
        Ok(read) => Ok(read.get(prefix, suffix)),
        Err(_) => unreachable!(),
    }
}
