// Made from crates/zerotrie_search/src/sorted.rt by rust/make: edit that.
//! Listings in the order of bytes.

use crate::rstd::prelude::*;

mod back;
mod edges;
mod fork;
mod iterator;
mod path;
mod seek;
mod walk;

pub(in crate::made::zerotrie_search) use back::last_between;
use fork::{Fork, drop_inner, narrow_inner};
pub use iterator::ZeroTrieSortedIterator;
use seek::seek_of;
use crate::rstd::alloc::{AllocError, Allocator, Global};
use crate::rstd::cmp::Ordering;
use crate::rstd::ops::Bound;
pub(in crate::made::zerotrie_search) use walk::Reached;
use walk::{next_node_of, next_pair_of};
use crate::zerotrie_core::{
    ByteSet, TrieKind, ZeroTrieBuilderOptions, ZeroTrieWithOptions, by_kind, is_well_formed,
};

/// Lists the pairs of a trie of any kind in the order of bytes, each key borrowed from one buffer.
///
/// ```
/// # use zerotrie::{rstd::examples::*, zerotrie_search::*, zerotrie_base::*, zerotrie_core::*};
/// use zerotrie::rstd::ops::Bound;
///
/// // the keys "ab", "ac" and "b" with values 1, 2 and 3
/// let bytes = b"\xC2ab\x06\xC2bc\x01\x81\x82\x83";
/// let from = Bound::Excluded(b"ab".as_slice());
/// let mut sorted = ZeroTrieSorted::new::<Simple>(Global, bytes, from, Bound::Unbounded)?;
/// assert!(sorted.advance()?);
/// assert_eq!((sorted.key(), sorted.value()), (b"ac".as_slice(), 2));
/// assert!(sorted.advance()?);
/// assert_eq!((sorted.key(), sorted.value()), (b"b".as_slice(), 3));
/// assert!(!sorted.advance()?);
/// # Ok::<(), Fail>(())
/// ```
///
/// The order is that of the bytes of the stored keys, in every kind. So in a kind that ignores case
/// upper case comes before lower case. It allocates for the longest key alone: the key, and the open
/// branches on the way to it. Each has the set of its edges that are left, so that no edge is read
/// twice. Of any n bytes it reads none twice, and lists at most n pairs.
#[derive(Clone)]
pub struct ZeroTrieSorted<'a, 'p, A: Allocator = Global> {
    options: ZeroTrieBuilderOptions,
    bytes: &'a [u8],
    to: Bound<&'p [u8]>,
    key: Vec<u8, A>,
    rest: &'a [u8],
    forks: Vec<Fork<'a>, A>,
    value: usize,
    // At most how many pairs are to come.
    most: usize,
    // Whether the key is that of the pair that was listed last.
    found: bool,
    ended: bool,
}

/// Returns whether a key is within an upper bound.
fn is_up_to(to: Bound<&[u8]>, key: &[u8]) -> bool {
    match to {
        Bound::Unbounded => true,
        Bound::Included(bound) => key.cmp(bound) != Ordering::Greater,
        Bound::Excluded(bound) => key.cmp(bound) == Ordering::Less,
    }
}

/// Returns whether the bytes are a trie of the kind.
fn is_valid(kind: TrieKind, bytes: &[u8]) -> bool {
    by_kind!(kind, is_well_formed::<_>(bytes))
}

/// Moves to the next pair within an upper bound, and returns whether there is one.
fn next_within<'a, A: Allocator>(
    options: ZeroTrieBuilderOptions,
    to: Bound<&[u8]>,
    rest: &mut &'a [u8],
    key: &mut Vec<u8, A>,
    forks: &mut Vec<Fork<'a>, A>,
    value: &mut usize,
) -> Result<bool, AllocError> {
    let Some(found) = next_pair_of(options, rest, key, forks)? else {
        return Ok(false);
    };
    *value = found;
    let within = is_up_to(to, key.as_slice());
    Ok(within)
}

/// Returns the bytes where a listing begins. If nothing was found, there are none, and no branch is
/// open.
fn start_at<'a, A: Allocator>(found: Option<&'a [u8]>, forks: &mut Vec<Fork<'a>, A>) -> &'a [u8] {
    match found {
        Some(rest) => rest,
        None => {
            forks.truncate(0);
            &[]
        }
    }
}

impl<'a, 'p, A: Allocator + Copy> ZeroTrieSorted<'a, 'p, A> {
    /// Lists all pairs, for the kind that the options name.
    pub(in crate::made::zerotrie_search) fn all(alloc: A, options: ZeroTrieBuilderOptions, bytes: &'a [u8]) -> Self {
        ZeroTrieSorted {
            options,
            bytes,
            to: Bound::Unbounded,
            key: Vec::new(alloc),
            rest: bytes,
            forks: Vec::new(alloc),
            value: 0,
            most: bytes.len(),
            found: false,
            ended: false,
        }
    }

    /// Lists the pairs whose keys are between two bounds. Allocates for the key of the lower one.
    pub fn new<K: ZeroTrieWithOptions>(
        alloc: A,
        bytes: &'a [u8],
        from: Bound<&[u8]>,
        to: Bound<&'p [u8]>,
    ) -> Result<Self, AllocError> {
        ZeroTrieSorted::with_options(alloc, ZeroTrieBuilderOptions::of::<K>(), bytes, from, to)
    }

    /// Lists what `new` does, for the kind that the options name.
    pub(in crate::made::zerotrie_search) fn with_options(
        alloc: A,
        options: ZeroTrieBuilderOptions,
        bytes: &'a [u8],
        from: Bound<&[u8]>,
        to: Bound<&'p [u8]>,
    ) -> Result<Self, AllocError> {
        let mut key = Vec::new(alloc);
        let mut forks = Vec::new(alloc);
        let found = seek_of(options, bytes, from, &mut key, &mut forks)?;
        let rest = start_at(found, &mut forks);
        Ok(ZeroTrieSorted {
            options,
            bytes,
            to,
            key,
            rest,
            forks,
            value: 0,
            most: bytes.len(),
            found: false,
            ended: false,
        })
    }
}

impl<'a, 'p, A: Allocator> ZeroTrieSorted<'a, 'p, A> {
    /// Moves to the next pair, and returns whether there is one. An error ends the listing.
    ///
    /// The only error is a failed allocation for a longer key. On malformed bytes the result is
    /// unspecified; it never panics or reads outside them, and lists at most as many pairs as bytes.
    pub fn advance(&mut self) -> Result<bool, AllocError> {
        self.found = false;
        if self.ended {
            return Ok(false);
        }
        if self.most == 0 {
            self.ended = true;
            return Ok(false);
        }
        match next_within(
            self.options,
            self.to,
            &mut self.rest,
            &mut self.key,
            &mut self.forks,
            &mut self.value,
        ) {
            Ok(true) => {
                self.most -= 1;
                self.found = true;
                Ok(true)
            }
            Ok(false) => {
                self.ended = true;
                Ok(false)
            }
            Err(error) => {
                self.ended = true;
                Err(error)
            }
        }
    }

    /// Moves by one node: to the value of the current key, to more bytes of the keys that come next, or
    /// to the targets of a branch. An error ends the listing.
    ///
    /// It ends behind the upper bound, and where the bytes turn out to be malformed.
    pub(in crate::made::zerotrie_search) fn advance_node(&mut self) -> Result<Reached, AllocError> {
        self.found = false;
        if self.ended {
            return Ok(Reached::End);
        }
        self.ended = true;
        match next_node_of(
            self.options,
            &mut self.rest,
            &mut self.key,
            &mut self.value,
            &mut self.forks,
        )? {
            Reached::End => Ok(Reached::End),
            Reached::Pair => {
                if self.most == 0 {
                    return Ok(Reached::End);
                }
                if !is_up_to(self.to, self.key.as_slice()) {
                    return Ok(Reached::End);
                }
                self.most -= 1;
                self.found = true;
                self.ended = false;
                Ok(Reached::Pair)
            }
            Reached::Bytes(kept) => {
                self.ended = false;
                Ok(Reached::Bytes(kept))
            }
            Reached::Branch => {
                self.ended = false;
                Ok(Reached::Branch)
            }
        }
    }

    /// Leaves out the pairs still to come whose keys begin with the first `depth` bytes of the key.
    pub(in crate::made::zerotrie_search) fn leave(&mut self, depth: usize) {
        drop_inner(&mut self.forks, depth.min(self.key.len()));
        self.rest = &[];
    }

    /// Leaves out targets of the branch that was opened last whose edges are outside of a set. If that is
    /// not after the whole key, it does nothing.
    pub(in crate::made::zerotrie_search) fn only(&mut self, wanted: &ByteSet) {
        narrow_inner(&mut self.forks, self.key.len(), wanted);
    }

    /// Leaves out the pairs still to come whose keys begin with the first `depth` bytes of the current
    /// key. They are the next ones. If the last call of `advance` found no pair, it does nothing.
    ///
    /// ```
    /// # use zerotrie::{rstd::examples::*, zerotrie_search::*, zerotrie_base::*, zerotrie_core::*};
    /// use zerotrie::rstd::ops::Bound;
    ///
    /// // the keys "ab", "ac" and "b" with values 1, 2 and 3
    /// let bytes = b"\xC2ab\x06\xC2bc\x01\x81\x82\x83";
    /// let all = Bound::Unbounded;
    /// let mut sorted = ZeroTrieSorted::new::<Simple>(Global, bytes, all, all)?;
    /// assert!(sorted.advance()?);
    /// assert_eq!(sorted.key(), b"ab".as_slice());
    /// sorted.skip(1);
    /// assert!(sorted.advance()?);
    /// assert_eq!((sorted.key(), sorted.value()), (b"b".as_slice(), 3));
    /// # Ok::<(), Fail>(())
    /// ```
    ///
    /// It reads none of them. The key and its value stay.
    pub fn skip(&mut self, depth: usize) {
        if self.found {
            self.leave(depth);
        }
    }

    /// Returns the key of the current pair, the one that the last call of `advance` moved to.
    /// Before the first call and after the end, it is not a key of the trie.
    #[inline]
    pub fn key(&self) -> &[u8] {
        self.key.as_slice()
    }

    /// Returns the value of the current pair.
    #[inline]
    pub fn value(&self) -> usize {
        self.value
    }

    /// Returns whether the bytes are a trie of the kind. If they are not, what it lists is
    /// unspecified.
    ///
    /// ```
    /// # use zerotrie::{rstd::examples::*, zerotrie_search::*, zerotrie_base::*, zerotrie_core::*};
    /// use zerotrie::rstd::ops::Bound;
    ///
    /// let bytes = b"a\x85";        // the key "a" with value 5
    /// let all = Bound::Unbounded;
    /// let sorted = ZeroTrieSorted::new::<Simple>(Global, bytes, all, all)?;
    /// assert!(sorted.is_well_formed());
    /// # Ok::<(), Fail>(())
    /// ```
    pub fn is_well_formed(&self) -> bool {
        is_valid(self.options.kind(), self.bytes)
    }

    /// Returns the next pair alone.
    pub(in crate::made::zerotrie_search) fn first(self) -> Result<Option<(Vec<u8, A>, usize)>, AllocError> {
        let mut sorted = self;
        if !sorted.advance()? {
            return Ok(None);
        }
        let value = sorted.value;
        Ok(Some((sorted.key, value)))
    }
}
