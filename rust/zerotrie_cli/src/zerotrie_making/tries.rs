// Made from crates/zerotrie_making/src/tries.rt by rust/make: edit that.
//! Builds of a trie whose kind is known only when the program runs, and of an index; and why they
//! fail.

use crate::rstd::prelude::*;
use crate::rstd::alloc::{AllocError, Global};
use crate::zerotrie_any::{bytes_from_slice, bytes_from_unsorted_slice, kind_for_pairs};
use crate::zerotrie_build::{Refusal, why_iter_refused, why_slice_refused};
use crate::zerotrie_core::{TrieKind, ZeroTrieBuildError, ZeroTrieWithOptions, by_kind};
use crate::zerotrie_index::{ZeroIndexBuildError, build, build_sorted};

/// Returns the kind of a trie of the pairs: the named one, or the one that `ZeroTrie` chooses.
pub(in crate::zerotrie_making) fn kind_for(named: Option<TrieKind>, items: &[(&[u8], usize)]) -> TrieKind {
    match named {
        Some(kind) => kind,
        None => kind_for_pairs(items),
    }
}

/// Builds the trie of the pairs, of the kind `K`.
fn bytes_as<K: ZeroTrieWithOptions>(
    alloc: Global,
    sorted: bool,
    items: &[(&[u8], usize)],
) -> Result<Vec<u8>, ZeroTrieBuildError> {
    if sorted {
        bytes_from_slice::<K>(alloc, items)
    } else {
        bytes_from_unsorted_slice::<K>(alloc, items)
    }
}

/// Builds the trie of the pairs. With `sorted` their keys must ascend.
pub(in crate::zerotrie_making) fn bytes_of(
    alloc: Global,
    kind: TrieKind,
    sorted: bool,
    items: &[(&[u8], usize)],
) -> Result<Vec<u8>, ZeroTrieBuildError> {
    by_kind!(kind, bytes_as::<_>(alloc, sorted, items))
}

/// Returns which keys show why a build of the pairs fails, in the kind `K`.
fn why_as<K: ZeroTrieWithOptions>(
    alloc: Global,
    sorted: bool,
    items: &[(&[u8], usize)],
) -> Result<Option<Refusal>, AllocError> {
    if sorted {
        Ok(why_slice_refused::<K, &[u8]>(items))
    } else {
        why_iter_refused::<K, &[u8]>(alloc, items)
    }
}

/// Returns which keys show why a build of the pairs fails. `None` if none do.
pub(in crate::zerotrie_making) fn why_refused(
    alloc: Global,
    kind: TrieKind,
    sorted: bool,
    items: &[(&[u8], usize)],
) -> Result<Option<Refusal>, AllocError> {
    by_kind!(kind, why_as::<_>(alloc, sorted, items))
}

/// The first seed of an index.
const SEED: u64 = 0;

/// Builds the index of the pairs. With `sorted` their keys must ascend.
pub(in crate::zerotrie_making) fn index_bytes_of(
    alloc: Global,
    sorted: bool,
    items: &[(&[u8], usize)],
) -> Result<Vec<u8>, ZeroIndexBuildError> {
    if sorted {
        build_sorted(alloc, SEED, items)
    } else {
        build(alloc, SEED, items)
    }
}

/// Reads a key, which shows the proof that its bytes are below 256.
fn read_key(key: &[u8]) {
    let _first = key.first();
}

/// Reads the key of an item.
fn read_key_at(items: &[(&[u8], usize)], index: usize) {
    let (key, _) = items[index];
    read_key(key);
}

/// Returns which keys show why a build of an index of the pairs fails. `None` if none do.
pub(in crate::zerotrie_making) fn why_unindexed(
    alloc: Global,
    sorted: bool,
    items: &[(&[u8], usize)],
) -> Result<Option<Refusal>, AllocError> {
    // a trie of this kind takes keys of any bytes, too
    match why_refused(alloc, TrieKind::Hash, sorted, items)? {
        Some(refusal) => {
            read_key_at(items, refusal.first);
            Ok(Some(refusal))
        }
        None => Ok(None),
    }
}
