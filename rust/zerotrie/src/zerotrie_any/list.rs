// Made from crates/zerotrie_any/src/list.rt by rust/make: edit that.
//! The pairs of a trie, one after another, and its map.

use crate::rstd::prelude::*;
use crate::zerotrie_any::trie::{ZeroTrie, by_flavor};
use crate::rstd::alloc::{AllocError, Global};
use crate::rstd::collections::BTreeMap;
use crate::zerotrie_core::{ListError, TrieStore, ZeroTrieIterator, ZeroTrieWithOptions};

/// Returns the map of the trie in these bytes, in the order of the keys' bytes.
///
/// ```
/// # use zerotrie::{rstd::examples::*, zerotrie_any::*, zerotrie_base::*, zerotrie_core::*, zerotrie_build::*};
/// let map = map_of::<Simple>(Global, b"ad\x90\x06ef\x90\x11")?;
/// assert_eq!(map.len(), 2);
/// # Ok::<(), Fail>(())
/// ```
///
/// The only error is `OutOfMemory`. On malformed bytes the result is unspecified.
pub fn map_of<K: ZeroTrieWithOptions>(
    alloc: Global,
    bytes: &[u8],
) -> Result<BTreeMap<Vec<u8>, usize>, ListError> {
    let mut pairs = Vec::new(alloc);
    for item in ZeroTrieIterator::new::<K>(alloc, bytes) {
        pairs.push(item?)?;
    }
    Ok(BTreeMap::from_iter(alloc, pairs)?)
}

impl<S: TrieStore> ZeroTrie<S> {
    /// Returns an iterator over the pairs, in an unspecified order. Does not allocate before the
    /// first `next`.
    ///
    /// ```
    /// # use zerotrie::{rstd::examples::*, zerotrie_any::*, zerotrie_base::*, zerotrie_core::*, zerotrie_build::*};
    /// let trie = ZeroTrie::try_from_iter(Global, [("xyz", 22), ("abc", 11)])?;
    /// for item in trie.iter(Global) {
    ///     let (key, value) = item?;       // (b"abc", 11), then (b"xyz", 22)
    /// }
    /// # Ok::<(), Fail>(())
    /// ```
    ///
    /// An item is `ListError::OutOfMemory` if an allocation fails, and the iterator then ends. On
    /// malformed bytes there are at most as many pairs as bytes.
    pub fn iter(&self, alloc: Global) -> ZeroTrieIterator<'_> {
        let bytes = self.store.bytes();
        by_flavor!(self.flavor, ZeroTrieIterator::new::<_>(alloc, bytes))
    }

    /// Returns an iterator over the pairs whose keys begin with a prefix, each with its whole key,
    /// in the order of `iter`.
    ///
    /// Reads no part of the trie but the one below the prefix. An error means that an allocation
    /// failed.
    pub fn iter_prefix(
        &self,
        alloc: Global,
        prefix: &[u8],
    ) -> Result<ZeroTrieIterator<'_>, AllocError> {
        let bytes = self.store.bytes();
        by_flavor!(
            self.flavor,
            ZeroTrieIterator::with_prefix::<_>(alloc, bytes, prefix)
        )
    }

    /// Returns the map of the trie, in the order of the keys' bytes.
    ///
    /// ```
    /// # use zerotrie::{rstd::examples::*, zerotrie_any::*, zerotrie_base::*, zerotrie_core::*, zerotrie_build::*};
    /// let trie = ZeroTrie::try_from_iter(Global, [("xyz", 22), ("abc", 11)])?;
    /// assert_eq!(trie.to_btreemap(Global)?.len(), 2);
    /// # Ok::<(), Fail>(())
    /// ```
    ///
    /// The only error is `OutOfMemory`.
    pub fn to_btreemap(&self, alloc: Global) -> Result<BTreeMap<Vec<u8>, usize>, ListError> {
        let bytes = self.store.bytes();
        by_flavor!(self.flavor, map_of::<_>(alloc, bytes))
    }
}
