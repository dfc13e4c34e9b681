// Made from crates/zerotrie_any/src/keys.rt by rust/make: edit that.
//! The keys of a trie, one after another.

use crate::rstd::prelude::*;
use crate::zerotrie_any::trie::ZeroTrie;
use crate::rstd::alloc::Global;
use crate::zerotrie_core::{ListError, TrieStore, ZeroTrieIterator, ZeroTrieWithOptions};

/// An iterator over the keys of a trie, in the order of `ZeroTrieIterator`.
///
/// An item is a key, or `ListError::OutOfMemory` if an allocation fails. After an error, and after
/// the end, each `next` returns `None`.
#[derive(Debug)]
pub struct ZeroTrieKeys<'a> {
    pairs: ZeroTrieIterator<'a>,
}

impl<'a> ZeroTrieKeys<'a> {
    /// Returns the keys of the trie in these bytes. Does not allocate before the first `next`.
    pub fn new<K: ZeroTrieWithOptions>(alloc: Global, bytes: &'a [u8]) -> Self {
        ZeroTrieKeys {
            pairs: ZeroTrieIterator::new::<K>(alloc, bytes),
        }
    }
}

impl<'a> Iterator for ZeroTrieKeys<'a> {
    type Item = Result<Vec<u8>, ListError>;

    fn next(&mut self) -> Option<Result<Vec<u8>, ListError>> {
        match self.pairs.next() {
            None => None,
            Some(Ok((key, _value))) => Some(Ok(key)),
            Some(Err(error)) => Some(Err(error)),
        }
    }
}

impl<S: TrieStore> ZeroTrie<S> {
    /// Returns an iterator over the keys, in the order of `iter`. Does not allocate before the
    /// first `next`.
    ///
    /// ```
    /// # use zerotrie::{rstd::examples::*, zerotrie_any::*, zerotrie_base::*, zerotrie_core::*, zerotrie_build::*};
    /// let trie = ZeroTrie::try_from_iter(Global, [("xyz", 22), ("abc", 11)])?;
    /// let first = trie.keys(Global).next().ok_or("no key")??;
    /// assert_eq!(first.as_slice(), b"abc".as_slice());
    /// # Ok::<(), Fail>(())
    /// ```
    pub fn keys(&self, alloc: Global) -> ZeroTrieKeys<'_> {
        ZeroTrieKeys {
            pairs: self.iter(alloc),
        }
    }
}
