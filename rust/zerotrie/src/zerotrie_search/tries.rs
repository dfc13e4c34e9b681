// Made from crates/zerotrie_search/src/tries.rt by rust/make: edit that.
//! Searches of every trie.

use crate::rstd::prelude::*;
use crate::zerotrie_search::automaton::Automaton;
use crate::zerotrie_search::combination::Both;
use crate::zerotrie_search::fuzzy::Fuzzy;
use crate::zerotrie_search::nearest::ZeroTrieNearest;
use crate::zerotrie_search::prefix::KindPrefix;
use crate::zerotrie_search::search::ZeroTrieSearch;
use crate::zerotrie_search::sorted::{ZeroTrieSorted, ZeroTrieSortedIterator, last_between};
use crate::rstd::alloc::{AllocError, Global};
use crate::rstd::ops::Bound;
use crate::zerotrie_core::{Trie, TrieKind, ZeroTrieBuilderOptions, by_kind};

/// Returns the options of a kind.
fn options_of(kind: TrieKind) -> ZeroTrieBuilderOptions {
    by_kind!(kind, ZeroTrieBuilderOptions::of::<_>())
}

/// A trie whose pairs can be searched: each type of trie, over each store.
///
/// ```
/// # use zerotrie::{rstd::examples::*, zerotrie_search::*, zerotrie_base::*, zerotrie_core::*};
/// let words = [("trial", 1), ("trie", 2), ("trio", 3)];
/// let trie = ZeroTrieSimpleAscii::try_from_iter(Global, words)?;
/// let mut search = trie.search(Global, Subsequence(b"ta"));
/// assert!(search.advance()?);
/// assert_eq!((search.key(), search.value()), (b"trial".as_slice(), 1));
/// assert!(!search.advance()?);
/// # Ok::<(), Fail>(())
/// ```
///
/// A search lists the accepted pairs in ascending order of the bytes of their keys, in every kind. It does
/// not allocate for each pair. On malformed bytes it ends too: it lists at most as many pairs as bytes.
pub trait Search: Trie {
    /// Lists the pairs whose keys an automaton accepts.
    fn search<T: Automaton>(&self, alloc: Global, automaton: T) -> ZeroTrieSearch<'_, '_, T> {
        let (options, bytes) = (options_of(self.trie_kind()), self.as_bytes());
        let pairs = ZeroTrieSorted::all(alloc, options, bytes);
        ZeroTrieSearch::new(alloc, pairs, automaton)
    }

    /// Lists the pairs whose keys begin with a prefix, as the kind compares bytes, and whose whole
    /// keys an automaton accepts.
    ///
    /// ```
    /// # use zerotrie::{rstd::examples::*, zerotrie_search::*, zerotrie_base::*, zerotrie_core::*};
    /// let words = [("strip", 1), ("trial", 2), ("trip", 3)];
    /// let trie = ZeroTrieSimpleAscii::try_from_iter(Global, words)?;
    /// let mut search = trie.search_prefix(Global, b"t", Subsequence(b"ip"));
    /// assert!(search.advance()?);
    /// assert_eq!(search.value(), 3);
    /// assert!(!search.advance()?);
    /// # Ok::<(), Fail>(())
    /// ```
    fn search_prefix<'p, T: Automaton>(
        &self,
        alloc: Global,
        prefix: &'p [u8],
        automaton: T,
    ) -> ZeroTrieSearch<'_, '_, Both<KindPrefix<'p>, T>> {
        let kind = self.trie_kind();
        self.search(alloc, Both(KindPrefix { kind, prefix }, automaton))
    }

    /// Lists the pairs whose keys are between two bounds and that an automaton accepts.
    ///
    /// ```
    /// # use zerotrie::{rstd::examples::*, zerotrie_search::*, zerotrie_base::*, zerotrie_core::*};
    /// use zerotrie::rstd::ops::Bound;
    ///
    /// let words = [("trial", 1), ("trie", 2), ("trio", 3), ("true", 4)];
    /// let trie = ZeroTriePerfectHash::try_from_iter(Global, words)?;
    /// let from = Bound::Excluded(b"trial".as_slice());
    /// let with_i = Subsequence(b"i");
    /// let mut search = trie.search_range(Global, from, Bound::Unbounded, with_i)?;
    /// assert!(search.advance()?);
    /// assert_eq!((search.key(), search.value()), (b"trie".as_slice(), 2));
    /// assert!(search.advance()?);
    /// assert_eq!((search.key(), search.value()), (b"trio".as_slice(), 3));
    /// assert!(!search.advance()?);
    /// # Ok::<(), Fail>(())
    /// ```
    ///
    /// So a program continues a search behind the last key that it read. It reads no node of keys that
    /// begin as no accepted key does. An error means that an allocation failed.
    fn search_range<'p, T: Automaton>(
        &self,
        alloc: Global,
        from: Bound<&[u8]>,
        to: Bound<&'p [u8]>,
        automaton: T,
    ) -> Result<ZeroTrieSearch<'_, 'p, T>, AllocError> {
        let pairs = self.stream_sorted(alloc, from, to)?;
        Ok(ZeroTrieSearch::new(alloc, pairs, automaton))
    }

    /// Lists the pairs whose keys come after one, begin with a prefix as the kind compares bytes, and
    /// are accepted as a whole by an automaton.
    ///
    /// ```
    /// # use zerotrie::{rstd::examples::*, zerotrie_search::*, zerotrie_base::*, zerotrie_core::*};
    /// let words = [("trial", 1), ("trie", 2), ("trio", 3)];
    /// let trie = ZeroTrieSimpleAscii::try_from_iter(Global, words)?;
    /// let mut search = trie.search_after(Global, b"", b"trial", Subsequence(b"tr"))?;
    /// assert!(search.advance()?);
    /// assert_eq!(search.value(), 2);
    /// # Ok::<(), Fail>(())
    /// ```
    ///
    /// So a program continues a search behind the last key that it read. An error means that an
    /// allocation failed.
    fn search_after<'p, T: Automaton>(
        &self,
        alloc: Global,
        prefix: &'p [u8],
        key: &[u8],
        automaton: T,
    ) -> Result<ZeroTrieSearch<'_, 'p, Both<KindPrefix<'p>, T>>, AllocError> {
        let kind = self.trie_kind();
        let both = Both(KindPrefix { kind, prefix }, automaton);
        self.search_range(alloc, Bound::Excluded(key), Bound::Unbounded, both)
    }

    /// Lists the pairs whose keys are between two bounds in ascending order of bytes, in every kind.
    ///
    /// ```
    /// # use zerotrie::{rstd::examples::*, zerotrie_search::*, zerotrie_base::*, zerotrie_core::*};
    /// use zerotrie::rstd::ops::Bound;
    ///
    /// let words = [("trial", 1), ("trie", 2), ("trio", 3)];
    /// let trie = ZeroTriePerfectHash::try_from_iter(Global, words)?;
    /// let from = Bound::Excluded(b"trial".as_slice());
    /// let mut sorted = trie.stream_sorted(Global, from, Bound::Unbounded)?;
    /// assert!(sorted.advance()?);
    /// assert_eq!((sorted.key(), sorted.value()), (b"trie".as_slice(), 2));
    /// # Ok::<(), Fail>(())
    /// ```
    ///
    /// The order is that of the bytes of the stored keys, so where the kind ignores case, upper case
    /// comes first. An error means that an allocation failed.
    fn stream_sorted<'p>(
        &self,
        alloc: Global,
        from: Bound<&[u8]>,
        to: Bound<&'p [u8]>,
    ) -> Result<ZeroTrieSorted<'_, 'p>, AllocError> {
        let (options, bytes) = (options_of(self.trie_kind()), self.as_bytes());
        let sorted = ZeroTrieSorted::with_options(alloc, options, bytes, from, to)?;
        Ok(sorted)
    }

    /// Lists the pairs whose keys few edits make of a word, the nearest first, and those that are as near
    /// in the order of bytes.
    ///
    /// ```
    /// # use zerotrie::{rstd::examples::*, zerotrie_search::*, zerotrie_base::*, zerotrie_core::*};
    /// let words = [("trial", 1), ("trie", 2), ("tries", 3), ("trio", 4)];
    /// let trie = ZeroTriePerfectHash::try_from_iter(Global, words)?;
    /// let word = LevenshteinChars::new("trie", 1).ok_or("a long word")?;
    /// let mut nearest = trie.nearest(Global, word);
    /// assert!(nearest.advance()?);
    /// assert_eq!((nearest.key(), nearest.value()), (b"trie".as_slice(), 2));
    /// assert_eq!(nearest.distance(), 0);
    /// assert!(nearest.advance()?);
    /// assert_eq!((nearest.key(), nearest.value()), (b"tries".as_slice(), 3));
    /// assert_eq!(nearest.distance(), 1);
    /// assert!(nearest.advance()?);
    /// assert_eq!((nearest.key(), nearest.value()), (b"trio".as_slice(), 4));
    /// assert!(!nearest.advance()?);
    /// # Ok::<(), Fail>(())
    /// ```
    ///
    /// It searches as it is asked. On malformed bytes it lists at most as many pairs as bytes for each
    /// number of edits.
    fn nearest<T: Fuzzy>(&self, alloc: Global, automaton: T) -> ZeroTrieNearest<'_, T> {
        let (options, bytes) = (options_of(self.trie_kind()), self.as_bytes());
        ZeroTrieNearest::with_options(alloc, options, bytes, automaton)
    }

    /// Returns an iterator over the pairs whose keys are between two bounds, in ascending order of
    /// bytes. Each key is in memory of its own.
    ///
    /// ```
    /// # use zerotrie::{rstd::examples::*, zerotrie_search::*, zerotrie_base::*, zerotrie_core::*};
    /// use zerotrie::rstd::ops::Bound;
    ///
    /// let words = [("trial", 1), ("trie", 2), ("trio", 3)];
    /// let trie = ZeroTriePerfectHash::try_from_iter(Global, words)?;
    /// let mut sum = 0usize;
    /// for item in trie.iter_sorted(Global, Bound::Unbounded, Bound::Included(b"trie"))? {
    ///     sum = sum.wrapping_mul(10).wrapping_add(item?.1);
    /// }
    /// assert_eq!(sum, 12);
    /// # Ok::<(), Fail>(())
    /// ```
    ///
    /// `stream_sorted` lists the same pairs without allocating each key. An error means that an
    /// allocation failed.
    fn iter_sorted<'p>(
        &self,
        alloc: Global,
        from: Bound<&[u8]>,
        to: Bound<&'p [u8]>,
    ) -> Result<ZeroTrieSortedIterator<'_, 'p>, AllocError> {
        let sorted = self.stream_sorted(alloc, from, to)?;
        Ok(ZeroTrieSortedIterator::new(sorted))
    }

    /// Returns the least pair, by the bytes of its key, whose key is at least this one, or `None` if
    /// there is none.
    ///
    /// ```
    /// # use zerotrie::{rstd::examples::*, zerotrie_search::*, zerotrie_base::*, zerotrie_core::*};
    /// let words = [("trial", 1), ("trie", 2), ("trio", 3)];
    /// let trie = ZeroTriePerfectHash::try_from_iter(Global, words)?;
    /// let (key, value) = trie.first_from(Global, b"tribe")?.ok_or("none")?;
    /// assert_eq!((key.as_slice(), value), (b"trie".as_slice(), 2));
    /// assert!(trie.first_from(Global, b"true")?.is_none());
    /// # Ok::<(), Fail>(())
    /// ```
    ///
    /// It reads the edges of each branch that it passes. On malformed bytes the result is unspecified.
    /// An error means that an allocation failed.
    fn first_from(&self, alloc: Global, key: &[u8]) -> Result<Option<(Vec<u8>, usize)>, AllocError> {
        let sorted = self.stream_sorted(alloc, Bound::Included(key), Bound::Unbounded)?;
        let first = sorted.first()?;
        Ok(first)
    }

    /// Returns the least pair, by the bytes of its key, whose key is above this one, or `None` if
    /// there is none.
    ///
    /// ```
    /// # use zerotrie::{rstd::examples::*, zerotrie_search::*, zerotrie_base::*, zerotrie_core::*};
    /// let words = [("trial", 1), ("trie", 2), ("trio", 3)];
    /// let trie = ZeroTriePerfectHash::try_from_iter(Global, words)?;
    /// let (key, value) = trie.first_after(Global, b"trie")?.ok_or("none")?;
    /// assert_eq!((key.as_slice(), value), (b"trio".as_slice(), 3));
    /// # Ok::<(), Fail>(())
    /// ```
    ///
    /// On malformed bytes the result is unspecified. An error means that an allocation failed.
    fn first_after(&self, alloc: Global, key: &[u8]) -> Result<Option<(Vec<u8>, usize)>, AllocError> {
        let sorted = self.stream_sorted(alloc, Bound::Excluded(key), Bound::Unbounded)?;
        let first = sorted.first()?;
        Ok(first)
    }

    /// Returns the greatest pair, by the bytes of its key, whose key is below this one, or `None` if
    /// there is none.
    ///
    /// ```
    /// # use zerotrie::{rstd::examples::*, zerotrie_search::*, zerotrie_base::*, zerotrie_core::*};
    /// let words = [("trial", 1), ("trie", 2), ("trio", 3)];
    /// let trie = ZeroTriePerfectHash::try_from_iter(Global, words)?;
    /// let (key, value) = trie.last_before(Global, b"trie")?.ok_or("none")?;
    /// assert_eq!((key.as_slice(), value), (b"trial".as_slice(), 1));
    /// assert!(trie.last_before(Global, b"trial")?.is_none());
    /// # Ok::<(), Fail>(())
    /// ```
    ///
    /// It costs what `first_from` does. On malformed bytes the result is unspecified. An error means
    /// that an allocation failed.
    fn last_before(&self, alloc: Global, key: &[u8]) -> Result<Option<(Vec<u8>, usize)>, AllocError> {
        self.last_within(alloc, Bound::Unbounded, Bound::Excluded(key))
    }

    /// Returns the greatest pair, by the bytes of its key, whose key is between two bounds, or `None`
    /// if there is none.
    ///
    /// ```
    /// # use zerotrie::{rstd::examples::*, zerotrie_search::*, zerotrie_base::*, zerotrie_core::*};
    /// use zerotrie::rstd::ops::Bound;
    ///
    /// let words = [("trial", 1), ("trie", 2), ("trio", 3)];
    /// let trie = ZeroTriePerfectHash::try_from_iter(Global, words)?;
    /// let last = trie.last_within(Global, Bound::Unbounded, Bound::Unbounded)?;
    /// assert_eq!(last.map(|pair| pair.1), Some(3));
    /// let to = Bound::Included(b"tribe".as_slice());
    /// let last = trie.last_within(Global, Bound::Unbounded, to)?;
    /// assert_eq!(last.map(|pair| pair.1), Some(1));
    /// assert!(trie.last_within(Global, Bound::Excluded(b"trial"), to)?.is_none());
    /// # Ok::<(), Fail>(())
    /// ```
    ///
    /// It compares the edges at one place for each byte that it goes back or down. On malformed bytes
    /// the result is unspecified. An error means that an allocation failed.
    fn last_within(
        &self,
        alloc: Global,
        from: Bound<&[u8]>,
        to: Bound<&[u8]>,
    ) -> Result<Option<(Vec<u8>, usize)>, AllocError> {
        let (options, bytes) = (options_of(self.trie_kind()), self.as_bytes());
        last_between(alloc, options, bytes, from, to)
    }
}

impl<R: Trie> Search for R {}
