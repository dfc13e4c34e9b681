// Made from crates/zerotrie_ascii/src/list.rt by rust/make: edit that.
//! The pairs of a trie, one after another.

use crate::rstd::prelude::*;
use crate::zerotrie_ascii::trie::{AsciiKind, AsciiTrie};
use crate::rstd::alloc::{AllocError, Global};
use crate::rstd::collections::BTreeMap;
use crate::zerotrie_core::{ListError, TrieStore, ZeroTrieIterator};

/// An iterator over the pairs of a trie over ASCII keys, in ascending order of the keys: by their
/// bytes, or if case is ignored by their bytes in lower case.
///
/// An item is a key with its value, or `ListError::OutOfMemory` if an allocation fails. On
/// malformed bytes it may be `ListError::NotText`, if a key is not UTF-8. After an error, and after
/// the end, each `next` returns `None`.
#[derive(Debug)]
pub struct ZeroTrieStringIterator<'a> {
    inner: ZeroTrieIterator<'a>,
    ended: bool,
}

impl<'a> ZeroTrieStringIterator<'a> {
    /// Returns an iterator over the pairs of the trie in these bytes.
    pub(in crate::made::zerotrie_ascii) fn new<K: AsciiKind>(alloc: Global, bytes: &'a [u8]) -> Self {
        ZeroTrieStringIterator {
            inner: ZeroTrieIterator::new::<K>(alloc, bytes),
            ended: false,
        }
    }

    /// Returns an iterator over those pairs of the trie in these bytes whose keys begin with a
    /// prefix.
    pub(in crate::made::zerotrie_ascii) fn with_prefix<K: AsciiKind>(
        alloc: Global,
        bytes: &'a [u8],
        prefix: &[u8],
    ) -> Result<Self, AllocError> {
        Ok(ZeroTrieStringIterator {
            inner: ZeroTrieIterator::with_prefix::<K>(alloc, bytes, prefix)?,
            ended: false,
        })
    }
}

impl<'a> Iterator for ZeroTrieStringIterator<'a> {
    type Item = Result<(String, usize), ListError>;

    fn next(&mut self) -> Option<Result<(String, usize), ListError>> {
        if self.ended {
            return None;
        }
        match self.inner.next() {
            None => None,
            Some(Err(error)) => {
                self.ended = true;
                Some(Err(error))
            }
            Some(Ok((key, value))) => match crate::rstd::string::from_utf8(key) {
                Ok(text) => Some(Ok((text, value))),
                Err(_) => {
                    self.ended = true;
                    Some(Err(ListError::NotText))
                }
            },
        }
    }
}

/// An iterator over the keys of a trie over ASCII keys, in the order of `ZeroTrieStringIterator`.
///
/// An item is a key, or an error as there. After an error, and after the end, each `next` returns
/// `None`.
#[derive(Debug)]
pub struct ZeroTrieStringKeys<'a> {
    pairs: ZeroTrieStringIterator<'a>,
}

impl<'a> ZeroTrieStringKeys<'a> {
    /// Returns an iterator over the keys of the trie in these bytes.
    pub(in crate::made::zerotrie_ascii) fn new<K: AsciiKind>(alloc: Global, bytes: &'a [u8]) -> Self {
        ZeroTrieStringKeys {
            pairs: ZeroTrieStringIterator::new::<K>(alloc, bytes),
        }
    }
}

impl<'a> Iterator for ZeroTrieStringKeys<'a> {
    type Item = Result<String, ListError>;

    fn next(&mut self) -> Option<Result<String, ListError>> {
        match self.pairs.next() {
            None => None,
            Some(Ok((key, _value))) => Some(Ok(key)),
            Some(Err(error)) => Some(Err(error)),
        }
    }
}

impl<K: AsciiKind, S: TrieStore> AsciiTrie<K, S> {
    /// Returns an iterator over the pairs, in ascending order of their keys: by their bytes, or if
    /// case is ignored by their bytes in lower case. Does not allocate before the first `next`.
    ///
    /// ```
    /// # use zerotrie::{rstd::examples::*, zerotrie_ascii::*, zerotrie_core::*, zerotrie_build::*, zerotrie_any::*};
    /// let trie = ZeroTrieSimpleAscii::try_from_iter(Global, [("xyz", 22), ("abc", 11)])?;
    /// for (item, pair) in trie.iter(Global).zip([("abc", 11), ("xyz", 22)]) {
    ///     let (key, value) = item?;
    ///     assert_eq!((key.as_str(), value), pair);
    /// }
    /// # Ok::<(), Fail>(())
    /// ```
    ///
    /// An item is `ListError::OutOfMemory` if an allocation fails, and the iterator then ends. On
    /// malformed bytes there are at most as many pairs as bytes.
    pub fn iter(&self, alloc: Global) -> ZeroTrieStringIterator<'_> {
        ZeroTrieStringIterator::new::<K>(alloc, self.as_bytes())
    }

    /// Returns an iterator over the pairs whose keys begin with a prefix, each with its whole key,
    /// in the order of `iter`.
    ///
    /// ```
    /// # use zerotrie::{rstd::examples::*, zerotrie_ascii::*, zerotrie_core::*, zerotrie_build::*, zerotrie_any::*};
    /// let trie = ZeroTrieSimpleAscii::try_from_iter(Global, [("xyz", 22), ("abc", 11)])?;
    /// let mut pairs = trie.iter_prefix(Global, b"ab")?;
    /// let (key, value) = pairs.next().ok_or("no key")??;
    /// assert_eq!((key.as_str(), value), ("abc", 11));
    /// assert!(pairs.next().is_none());
    /// # Ok::<(), Fail>(())
    /// ```
    ///
    /// Reads no part of the trie but the one below the prefix. An error means that an allocation
    /// failed.
    pub fn iter_prefix(
        &self,
        alloc: Global,
        prefix: &[u8],
    ) -> Result<ZeroTrieStringIterator<'_>, AllocError> {
        ZeroTrieStringIterator::with_prefix::<K>(alloc, self.as_bytes(), prefix)
    }

    /// Returns an iterator over the keys, in the order of `iter`. Does not allocate before the
    /// first `next`.
    ///
    /// ```
    /// # use zerotrie::{rstd::examples::*, zerotrie_ascii::*, zerotrie_core::*, zerotrie_build::*, zerotrie_any::*};
    /// let trie = ZeroTrieSimpleAscii::try_from_iter(Global, [("xyz", 22), ("abc", 11)])?;
    /// let first = trie.keys(Global).next().ok_or("no key")??;
    /// assert_eq!(first.as_str(), "abc");
    /// # Ok::<(), Fail>(())
    /// ```
    pub fn keys(&self, alloc: Global) -> ZeroTrieStringKeys<'_> {
        ZeroTrieStringKeys::new::<K>(alloc, self.as_bytes())
    }

    /// Returns the map of the trie, in the order of the keys' bytes.
    ///
    /// ```
    /// # use zerotrie::{rstd::examples::*, zerotrie_ascii::*, zerotrie_core::*, zerotrie_build::*, zerotrie_any::*};
    /// let trie = ZeroTrieSimpleAscii::try_from_iter(Global, [("xyz", 22), ("abc", 11)])?;
    /// assert_eq!(trie.to_btreemap(Global)?.len(), 2);
    /// # Ok::<(), Fail>(())
    /// ```
    ///
    /// The only error is `OutOfMemory`, or on malformed bytes `NotText`.
    pub fn to_btreemap(&self, alloc: Global) -> Result<BTreeMap<String, usize>, ListError> {
        let mut pairs = Vec::new(alloc);
        for item in self.iter(alloc) {
            pairs.push(item?)?;
        }
        Ok(BTreeMap::from_iter(alloc, pairs)?)
    }
}
