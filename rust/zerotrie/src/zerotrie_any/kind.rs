// Made from crates/zerotrie_any/src/kind.rt by rust/make: edit that.
//! The kind of a trie of pairs, if the caller names none.

use crate::zerotrie_base::{TriePair, are_ascii};
use crate::zerotrie_core::TrieKind;

/// Returns whether all keys are ASCII and there are fewer than `TrieKind::SIMPLE_LIMIT`.
pub(in crate::made::zerotrie_any) fn is_simple<P: TriePair>(pairs: &[P]) -> bool {
    pairs.len() < TrieKind::SIMPLE_LIMIT && are_ascii(pairs)
}

/// Returns the kind of the `ZeroTrie` of the pairs: `Simple` if all keys are ASCII and there are
/// fewer than `TrieKind::SIMPLE_LIMIT`, and else `Hash`.
///
/// ```
/// # use zerotrie::{rstd::examples::*, zerotrie_any::*, zerotrie_base::*, zerotrie_core::*, zerotrie_build::*};
/// assert_eq!(kind_for_pairs(&[("ad", 22), ("adef", 33)]), TrieKind::Simple);
/// assert_eq!(kind_for_pairs(&[("å", 1)]), TrieKind::Hash);
/// # Ok::<(), Fail>(())
/// ```
pub fn kind_for_pairs<P: TriePair>(pairs: &[P]) -> TrieKind {
    if is_simple(pairs) {
        TrieKind::Simple
    } else {
        TrieKind::Hash
    }
}
