// Made from crates/zerotrie_uses/src/listings.rt by rust/make: edit that.
//! The pairs of a trie as an ordered map, calls of a cursor over them, and a listing that skips some.

use crate::rstd::prelude::*;
use crate::rstd::alloc::{AllocError, Global};
use crate::rstd::collections::BTreeMap;
use crate::zerotrie_all::{
    CursorAnswer, CursorOp, Trie, TrieStore, ZeroTrieBuildError, ZeroTriePerfectHash,
    ZeroTrieSimpleAscii, ZeroTrieStream,
};

/// Builds a trie of pairs in ascending order, and returns it as an ordered map: these pairs.
///
/// The errors are those of `ZeroTrieSimpleAscii::try_from_sorted_slice`, and `OutOfMemory`.
pub fn listed_again(
    alloc: Global,
    pairs: &[(&[u8], usize)],
) -> Result<BTreeMap<String, usize>, ZeroTrieBuildError> {
    let trie = ZeroTrieSimpleAscii::try_from_sorted_slice(alloc, pairs)?;
    match trie.to_btreemap(alloc) {
        Ok(map) => Ok(map),
        Err(_) => Err(ZeroTrieBuildError::OutOfMemory),
    }
}

/// Returns the results of a cursor's calls over pairs in ascending order: those of the definition of
/// a cursor over the pairs themselves.
///
/// The errors are those of `ZeroTrieSimpleAscii::try_from_sorted_slice`, and `OutOfMemory`.
pub fn walk_over(
    alloc: Global,
    pairs: &[(&[u8], usize)],
    calls: &[CursorOp],
) -> Result<Vec<CursorAnswer>, ZeroTrieBuildError> {
    let trie = ZeroTrieSimpleAscii::try_from_sorted_slice(alloc, pairs)?;
    Ok(trie.walk(alloc, calls)?)
}

/// Lists the pairs after the first, without those whose keys begin as the first key does, in its first
/// `depth` bytes. Reads nothing of the keys that it leaves out.
///
/// An error means that an allocation failed.
pub fn past_first_group<S: TrieStore>(
    alloc: Global,
    trie: &ZeroTriePerfectHash<S>,
    depth: usize,
) -> Result<ZeroTrieStream<'_>, AllocError> {
    let mut pairs = trie.stream(alloc);
    pairs.advance()?;
    pairs.skip(depth);
    Ok(pairs)
}
