// Made from crates/zerotrie_hashed/src/list.rt by rust/make: edit that.
//! The pairs of a trie, one after another.

use crate::rstd::prelude::*;
use crate::zerotrie_hashed::trie::{HashedKind, HashedTrie};
use crate::rstd::alloc::{AllocError, Global};
use crate::rstd::collections::BTreeMap;
use crate::zerotrie_any::{ZeroTrieKeys, map_of};
use crate::zerotrie_core::{ListError, TrieStore, ZeroTrieIterator};

impl<K: HashedKind, S: TrieStore> HashedTrie<K, S> {
    /// Returns an iterator over the pairs, in an unspecified order. Does not allocate before the
    /// first `next`.
    ///
    /// ```
    /// # use zerotrie::{rstd::examples::*, zerotrie_hashed::*, zerotrie_core::*, zerotrie_build::*, zerotrie_any::*};
    /// let trie = ZeroTriePerfectHash::try_from_iter(Global, [("å", 1), ("ø", 2)])?;
    /// for item in trie.iter(Global) {
    ///     let (key, value) = item?;
    ///     assert_eq!(trie.get(key.as_slice()), Some(value));
    /// }
    /// # Ok::<(), Fail>(())
    /// ```
    ///
    /// An item is `ListError::OutOfMemory` if an allocation fails, and the iterator then ends. On
    /// malformed bytes there are at most as many pairs as bytes.
    pub fn iter(&self, alloc: Global) -> ZeroTrieIterator<'_> {
        ZeroTrieIterator::new::<K>(alloc, self.as_bytes())
    }

    /// Returns an iterator over the pairs whose keys begin with a prefix, each with its whole key,
    /// in the order of `iter`.
    ///
    /// Reads no part of the trie but the one below the prefix. An error means that an allocation
    /// failed.
    pub fn iter_prefix(
        &self,
        alloc: Global,
        prefix: &[u8],
    ) -> Result<ZeroTrieIterator<'_>, AllocError> {
        ZeroTrieIterator::with_prefix::<K>(alloc, self.as_bytes(), prefix)
    }

    /// Returns an iterator over the keys, in the order of `iter`. Does not allocate before the
    /// first `next`.
    ///
    /// ```
    /// # use zerotrie::{rstd::examples::*, zerotrie_hashed::*, zerotrie_core::*, zerotrie_build::*, zerotrie_any::*};
    /// let trie = ZeroTriePerfectHash::try_from_iter(Global, [("xyz", 22), ("abc", 11)])?;
    /// let first = trie.keys(Global).next().ok_or("no key")??;
    /// assert_eq!(first.as_slice(), b"abc".as_slice());
    /// # Ok::<(), Fail>(())
    /// ```
    pub fn keys(&self, alloc: Global) -> ZeroTrieKeys<'_> {
        ZeroTrieKeys::new::<K>(alloc, self.as_bytes())
    }

    /// Returns the map of the trie, in the order of the keys' bytes.
    ///
    /// ```
    /// # use zerotrie::{rstd::examples::*, zerotrie_hashed::*, zerotrie_core::*, zerotrie_build::*, zerotrie_any::*};
    /// let trie = ZeroTriePerfectHash::try_from_iter(Global, [("xyz", 22), ("abc", 11)])?;
    /// assert_eq!(trie.to_btreemap(Global)?.len(), 2);
    /// # Ok::<(), Fail>(())
    /// ```
    ///
    /// The only error is `OutOfMemory`.
    pub fn to_btreemap(&self, alloc: Global) -> Result<BTreeMap<Vec<u8>, usize>, ListError> {
        map_of::<K>(alloc, self.as_bytes())
    }
}
