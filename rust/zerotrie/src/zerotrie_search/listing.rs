// Made from crates/zerotrie_search/src/listing.rt by rust/make: edit that.
//! Listings of the pairs of a trie, in any order.

use crate::zerotrie_search::automaton::Automaton;
use crate::zerotrie_search::fuzzy::Fuzzy;
use crate::zerotrie_search::nearest::ZeroTrieNearest;
use crate::zerotrie_search::search::ZeroTrieSearch;
use crate::zerotrie_search::sorted::ZeroTrieSorted;
use crate::rstd::alloc::{AllocError, Allocator};
use crate::zerotrie_core::ZeroTrieStream;

/// Lists pairs of a trie one after another, each key borrowed from one buffer: in the trie's own
/// order, in the order of bytes, or the nearest first.
///
/// ```
/// # use zerotrie::{rstd::examples::*, zerotrie_search::*, zerotrie_base::*, zerotrie_core::*};
/// use zerotrie::rstd::alloc::AllocError;
/// use zerotrie::rstd::ops::Bound;
///
/// fn sum<P: TrieListing>(most: usize, pairs: &mut P) -> Result<usize, AllocError> {
///     let mut sum = 0usize;
///     for _ in 0..most {
///         if !pairs.advance()? {
///             break;
///         }
///         sum = sum.wrapping_mul(10).wrapping_add(pairs.value());
///     }
///     Ok(sum)
/// }
///
/// // the keys "ab", "ac" and "b" with values 1, 2 and 3
/// let bytes = b"\xC2ab\x06\xC2bc\x01\x81\x82\x83";
/// let all = Bound::Unbounded;
/// let mut sorted = ZeroTrieSorted::new::<Simple>(Global, bytes, all, all)?;
/// assert_eq!(sum(4, &mut sorted)?, 123);
/// # Ok::<(), Fail>(())
/// ```
///
/// What is listed is known if the bytes are a trie. On any other bytes it is unspecified, but every
/// call returns, and no more pairs come than were promised when the listing was made.
pub trait TrieListing {
    // That the bytes are a trie. A listing in the trie's own order does not depend on it.

    // The pairs to come, and whether the listing has ended.

    // The current pair.

    // At most how many pairs are to come on any bytes.

    // Which keys may come on any bytes.

    /// Moves to the next pair, and returns whether there is one. An error ends the listing. The only
    /// error is a failed allocation.
    fn advance(&mut self) -> Result<bool, AllocError>;

    /// Returns the key of the current pair, the one that the last call of `advance` moved to.
    fn key(&self) -> &[u8];

    /// Returns the value of the current pair.
    fn value(&self) -> usize;
}

impl<'a, A: Allocator> TrieListing for ZeroTrieStream<'a, A> {
    fn advance(&mut self) -> Result<bool, AllocError> {
        ZeroTrieStream::advance(self)
    }

    fn key(&self) -> &[u8] {
        ZeroTrieStream::key(self)
    }

    fn value(&self) -> usize {
        ZeroTrieStream::value(self)
    }
}

impl<'a, 'p, A: Allocator> TrieListing for ZeroTrieSorted<'a, 'p, A> {
    fn advance(&mut self) -> Result<bool, AllocError> {
        ZeroTrieSorted::advance(self)
    }

    fn key(&self) -> &[u8] {
        ZeroTrieSorted::key(self)
    }

    fn value(&self) -> usize {
        ZeroTrieSorted::value(self)
    }
}

impl<'a, 'p, T: Automaton, A: Allocator> TrieListing for ZeroTrieSearch<'a, 'p, T, A> {
    fn advance(&mut self) -> Result<bool, AllocError> {
        ZeroTrieSearch::advance(self)
    }

    fn key(&self) -> &[u8] {
        ZeroTrieSearch::key(self)
    }

    fn value(&self) -> usize {
        ZeroTrieSearch::value(self)
    }
}

impl<'a, T: Fuzzy, A: Allocator + Copy> TrieListing for ZeroTrieNearest<'a, T, A> {
    fn advance(&mut self) -> Result<bool, AllocError> {
        ZeroTrieNearest::advance(self)
    }

    fn key(&self) -> &[u8] {
        ZeroTrieNearest::key(self)
    }

    fn value(&self) -> usize {
        ZeroTrieNearest::value(self)
    }
}
