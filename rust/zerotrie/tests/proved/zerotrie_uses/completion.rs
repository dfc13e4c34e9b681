// Made from crates/zerotrie_uses/src/completion.rt by rust/make: edit that.
//! The words that begin with what was typed.

use crate::rstd::prelude::*;
use crate::rstd::alloc::Global;
use crate::zerotrie_all::{Error, ZeroTrieSimpleAscii};

/// Returns those of the pairs whose words begin with a prefix, in their order. The pairs ascend.
///
/// The errors are those of `ZeroTrieSimpleAscii::try_from_sorted_slice`, and `List` or `Memory` if an
/// allocation fails.
pub fn complete(
    alloc: Global,
    pairs: &[(&[u8], usize)],
    prefix: &[u8],
) -> Result<Vec<(String, usize)>, Error> {
    let trie = ZeroTrieSimpleAscii::try_from_sorted_slice(alloc, pairs)?;
    let mut found = Vec::new(alloc);
    for pair in trie.iter_prefix(alloc, prefix)? {
        found.push(pair?)?;
    }
    Ok(found)
}
