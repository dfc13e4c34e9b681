// Made from crates/zerotrie_queries/src/sorted.rt by rust/make: edit that.
//! The pairs of a trie in the order of their keys' bytes.

use crate::rstd::prelude::*;
use crate::rstd::alloc::{AllocError, Global};
use crate::rstd::ops::Bound;
use crate::zerotrie_core::TrieRef;
use crate::zerotrie_search::Search;
use crate::zerotrie_search::laws::sorted_listing_ascends;
use crate::zerotrie_sets::SortedTrie;

/// Returns the place of the last byte below 255.
fn last_below(prefix: &[u8]) -> Option<usize> {
    let mut len = prefix.len();
    while len > 0 {
        len -= 1;
        if prefix[len] < 255 {
            return Some(len);
        }
    }
    None
}

/// Returns the bytes before a place, and then the byte after the one that is there.
fn next_at(alloc: Global, prefix: &[u8], place: usize) -> Result<Vec<u8>, AllocError> {
    let mut bound = Vec::new(alloc);
    bound.extend_from_slice(&prefix[..place])?;
    bound.push(prefix[place] + 1)?;
    Ok(bound)
}

/// Returns bytes above all keys that begin with a prefix. `None` if it has no byte below 255.
pub(in crate::zerotrie_queries) fn above_prefix(alloc: Global, prefix: &[u8]) -> Result<Option<Vec<u8>>, AllocError> {
    match last_below(prefix) {
        Some(place) => Ok(Some(next_at(alloc, prefix, place)?)),
        None => Ok(None),
    }
}

/// Lists all pairs between two bounds in the order of their keys' bytes.
///
/// An error means that an allocation failed.
pub(in crate::zerotrie_queries) fn stream_sorted<'t, 'p>(
    alloc: Global,
    trie: &'t TrieRef<'_>,
    from: Bound<&[u8]>,
    to: Bound<&'p [u8]>,
) -> Result<SortedTrie<'t, 'p>, AllocError> {
    let pairs = trie.stream_sorted(alloc, from, to)?;
    Ok(SortedTrie::new(pairs))
}

/// Lists all pairs of a trie in the order of their keys' bytes.
///
/// An error means that an allocation failed.
pub fn sorted_pairs<'t>(
    alloc: Global,
    trie: &'t TrieRef<'_>,
) -> Result<SortedTrie<'t, 't>, AllocError> {
    sorted_listing_ascends();
    stream_sorted(alloc, trie, Bound::Unbounded, Bound::Unbounded)
}
