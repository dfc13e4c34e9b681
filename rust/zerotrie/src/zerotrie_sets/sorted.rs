// Made from crates/zerotrie_sets/src/sorted.rt by rust/make: edit that.
//! Sorted listings of tries as streams.

use crate::rstd::alloc::{AllocError, Allocator, Global};
use crate::rstd::ops::Bound;
use crate::zerotrie_core::PairStream;
use crate::zerotrie_search::laws::sorted_listing_ascends;
use crate::zerotrie_search::{Search, ZeroTrieSorted};

/// Lists the pairs of a trie of any kind, or a range of them, in the order of bytes.
///
/// ```
/// # use zerotrie::{rstd::examples::*, zerotrie_sets::*, zerotrie_base::*, zerotrie_core::*, zerotrie_search::*};
/// use zerotrie::rstd::ops::Bound;
///
/// // the keys "ab", "ac" and "b" with values 1, 2 and 3
/// let bytes = b"\xC2ab\x06\xC2bc\x01\x81\x82\x83";
/// let from = Bound::Excluded(b"ab".as_slice());
/// let sorted = ZeroTrieSorted::new::<Simple>(Global, bytes, from, Bound::Unbounded)?;
/// let mut pairs = SortedTrie::validated(sorted).ok_or("no trie")?;
/// assert!(pairs.advance()?);
/// assert_eq!((pairs.key(), pairs.value()), (b"ac".as_slice(), 2));
/// # Ok::<(), Fail>(())
/// ```
///
/// So tries of different kinds can be merged and compared. The order is that of the bytes of the
/// stored keys.
pub struct SortedTrie<'a, 'p, A: Allocator = Global> {
    pairs: ZeroTrieSorted<'a, 'p, A>,
}

impl<'a, 'p, A: Allocator> SortedTrie<'a, 'p, A> {
    /// Lists what a sorted listing lists. Does not validate the bytes.
    pub fn new(pairs: ZeroTrieSorted<'a, 'p, A>) -> Self {
        SortedTrie { pairs }
    }

    /// Lists what a sorted listing lists, or returns `None` if the bytes are not valid.
    pub fn validated(pairs: ZeroTrieSorted<'a, 'p, A>) -> Option<Self> {
        if pairs.is_well_formed() {
            Some(SortedTrie::new(pairs))
        } else {
            None
        }
    }
}

impl<'a> SortedTrie<'a, 'a> {
    /// Lists all pairs of a trie of any type, or returns `None` if its bytes are not valid.
    ///
    /// ```
    /// # use zerotrie::{rstd::examples::*, zerotrie_sets::*, zerotrie_base::*, zerotrie_core::*, zerotrie_search::*};
    /// use zerotrie::zerotrie_all::{ZeroTriePerfectHash, ZeroTrieSimpleAscii};
    ///
    /// let old = ZeroTriePerfectHash::try_from_iter(Global, [("in", 1), ("on", 2)])?;
    /// let new = ZeroTrieSimpleAscii::try_from_iter(Global, [("in", 1), ("to", 3)])?;
    /// let first = SortedTrie::of(Global, &old)?.ok_or("no trie")?;
    /// let second = SortedTrie::of(Global, &new)?.ok_or("no trie")?;
    /// let mut diff = Diff::new(first, second);
    /// assert!(diff.advance()?);
    /// assert_eq!((diff.key(), diff.change()), (b"on".as_slice(), Change::Removed(2)));
    /// # Ok::<(), Fail>(())
    /// ```
    ///
    /// An error means that an allocation failed.
    pub fn of<T: Search>(alloc: Global, trie: &'a T) -> Result<Option<Self>, AllocError> {
        sorted_listing_ascends();
        let pairs = trie.stream_sorted(alloc, Bound::Unbounded, Bound::Unbounded)?;
        Ok(SortedTrie::validated(pairs))
    }
}

impl<'a, 'p, A: Allocator> PairStream for SortedTrie<'a, 'p, A> {
    fn advance(&mut self) -> Result<bool, AllocError> {
        self.pairs.advance()
    }

    fn key(&self) -> &[u8] {
        self.pairs.key()
    }

    fn value(&self) -> usize {
        self.pairs.value()
    }
}
