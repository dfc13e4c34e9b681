// Made from crates/zerotrie_hashed/src/cursor.rt by rust/make: edit that.
//! Cursors, which follow a key byte by byte.

use crate::rstd::prelude::*;
use crate::zerotrie_hashed::trie::{HashedKind, HashedTrie};
use crate::rstd::alloc::{AllocError, Global};
use core::marker::PhantomData;
use crate::zerotrie_any::{CursorAnswer, CursorOp, walk};
use crate::zerotrie_core::{
    ByteProbeResult, Ext, Hash, SpanCursor, TrieStore, ZeroTrieIterator, ZeroTrieStream,
};

/// A cursor in a trie over keys of any bytes. `K` is the kind.
///
/// Use it by the name of a kind: `ZeroTriePerfectHashCursor` or `ZeroTrieExtendedCapacityCursor`.
///
/// It represents what remains of all keys that begin with the bytes that were stepped. It borrows
/// from the trie's bytes and does not allocate. Each clone moves on its own. On malformed bytes
/// results are unspecified; no call panics or reads outside them.
///
/// The cursor may be inside a span, whose bytes are one edge after another with no value between
/// them.
#[derive(Debug)]
pub struct HashedCursor<'a, K> {
    place: SpanCursor<'a>,
    kind: PhantomData<K>,
}

/// A cursor in a `ZeroTriePerfectHash`.
///
/// ```
/// # use zerotrie::{rstd::examples::*, zerotrie_hashed::*, zerotrie_core::*, zerotrie_build::*, zerotrie_any::*};
/// let trie = ZeroTriePerfectHash::from_bytes(b"\xA2\xC3\xA5\x85");
/// let mut cursor = trie.cursor();
/// assert_eq!(cursor.step(0xC3), Some(0xC3));
/// assert_eq!(cursor.step(0xA5), Some(0xA5));
/// assert_eq!(cursor.take_value(), Some(5));
/// # Ok::<(), Fail>(())
/// ```
pub type ZeroTriePerfectHashCursor<'a> = HashedCursor<'a, Hash>;

/// A cursor in a `ZeroTrieExtendedCapacity`.
///
/// ```
/// # use zerotrie::{rstd::examples::*, zerotrie_hashed::*, zerotrie_core::*, zerotrie_build::*, zerotrie_any::*};
/// let trie = ZeroTrieExtendedCapacity::from_bytes(b"ab\x85");
/// let mut cursor = trie.cursor();
/// assert_eq!(cursor.step(b'a'), Some(b'a'));
/// assert_eq!(cursor.step(b'a'), None);
/// assert!(cursor.is_empty());
/// # Ok::<(), Fail>(())
/// ```
pub type ZeroTrieExtendedCapacityCursor<'a> = HashedCursor<'a, Ext>;

impl<'a, K> HashedCursor<'a, K> {
    fn new(trie: &'a [u8]) -> Self {
        HashedCursor {
            place: SpanCursor::new(trie),
            kind: PhantomData,
        }
    }
}

impl<'a, K: HashedKind> HashedCursor<'a, K> {
    /// Returns the trie of what remains of the keys. It borrows from the trie's bytes, so it may
    /// outlive the cursor.
    ///
    /// ```
    /// # use zerotrie::{rstd::examples::*, zerotrie_hashed::*, zerotrie_core::*, zerotrie_build::*, zerotrie_any::*};
    /// let trie = ZeroTriePerfectHash::from_bytes(b"a\xA2\xC3\xA5\x85");
    /// let mut cursor = trie.cursor();
    /// cursor.step(b'a');
    /// let suffixes = cursor.into_suffix_trie().ok_or("inside a span")?;
    /// assert_eq!(suffixes.get(b"\xC3\xA5"), Some(5));
    /// # Ok::<(), Fail>(())
    /// ```
    ///
    /// Returns `None` inside a span, where the bytes that remain are not a trie.
    pub fn into_suffix_trie(self) -> Option<HashedTrie<K, &'a [u8]>> {
        let trie = self.place.rest()?;
        Some(HashedTrie::from_bytes(trie))
    }

    /// Returns a lending iterator over what remains of the keys, with their values: each key is
    /// borrowed from one buffer. Does not change the cursor. The cursor may be inside a span.
    ///
    /// ```
    /// # use zerotrie::{rstd::examples::*, zerotrie_hashed::*, zerotrie_core::*, zerotrie_build::*, zerotrie_any::*};
    /// let trie = ZeroTriePerfectHash::from_bytes(b"a\xA2\xC3\xA5\x85");
    /// let mut cursor = trie.cursor();
    /// cursor.step(b'a');
    /// cursor.step(0xC3);
    /// let mut pairs = cursor.stream(Global)?;
    /// assert!(pairs.advance()?);
    /// assert_eq!((pairs.key(), pairs.value()), (b"\xA5".as_slice(), 5));
    /// # Ok::<(), Fail>(())
    /// ```
    ///
    /// An error means that an allocation failed.
    pub fn stream(&self, alloc: Global) -> Result<ZeroTrieStream<'a>, AllocError> {
        ZeroTrieStream::from_cursor::<K>(alloc, self.place.clone())
    }

    /// Returns an iterator over what remains of the keys, with their values. Does not change the
    /// cursor. The cursor may be inside a span. An error means that an allocation failed.
    pub fn iter(&self, alloc: Global) -> Result<ZeroTrieIterator<'a>, AllocError> {
        ZeroTrieIterator::from_cursor::<K>(alloc, self.place.clone())
    }

    /// Returns whether nothing remains: there is no value and no edge.
    pub fn is_empty(&self) -> bool {
        self.place.is_empty()
    }

    /// Takes the value of the key that ends here, so that a second call returns `None`. If there is
    /// none, returns `None` and leaves the cursor unchanged.
    pub fn take_value(&mut self) -> Option<usize> {
        self.place.take_value()
    }

    /// Follows the edge for this byte, past a value if there is one, and returns the byte. If there
    /// is no such edge, returns `None`, and the cursor becomes empty.
    #[inline(always)]
    pub fn step(&mut self, byte: u8) -> Option<u8> {
        self.place.step::<K>(byte)
    }

    /// Follows the edge with this index, past a value if there is one, and returns its byte and the
    /// number of edges here.
    ///
    /// ```
    /// # use zerotrie::{rstd::examples::*, zerotrie_hashed::*, zerotrie_core::*, zerotrie_build::*, zerotrie_any::*};
    /// let trie = ZeroTriePerfectHash::from_bytes(b"\xC2ab\x01\x85\x86");
    /// let mut cursor = trie.cursor();
    /// let edge = ByteProbeResult { byte: b'b', total_siblings: 2 };
    /// assert_eq!(cursor.probe(1), Some(edge));
    /// assert_eq!(cursor.probe(0), None);
    /// # Ok::<(), Fail>(())
    /// ```
    ///
    /// The edges of a branch are numbered in the order of its table. A literal or a byte of a span
    /// is one edge. If no edge has this index, returns `None`, and the cursor becomes empty.
    pub fn probe(&mut self, index: usize) -> Option<ByteProbeResult> {
        self.place.probe::<K>(index)
    }
}

impl<'a, K> Clone for HashedCursor<'a, K> {
    fn clone(&self) -> Self {
        HashedCursor {
            place: self.place.clone(),
            kind: PhantomData,
        }
    }
}

impl<K: HashedKind, S: TrieStore> HashedTrie<K, S> {
    /// Returns a cursor at the beginning of all keys.
    pub fn cursor(&self) -> HashedCursor<'_, K> {
        HashedCursor::new(self.as_bytes())
    }

    /// Makes these calls on a new cursor, one after another, and returns their results.
    ///
    /// ```
    /// # use zerotrie::{rstd::examples::*, zerotrie_hashed::*, zerotrie_core::*, zerotrie_build::*, zerotrie_any::*};
    /// let trie = ZeroTriePerfectHash::from_bytes(b"a\x85");
    /// let answers = trie.walk(Global, &[CursorOp::Step(b'a'), CursorOp::Take])?;
    /// assert_eq!(answers[0], CursorAnswer::Stepped(Some(b'a')));
    /// assert_eq!(answers[1], CursorAnswer::Taken(Some(5)));
    /// # Ok::<(), Fail>(())
    /// ```
    ///
    /// An error means that an allocation failed.
    pub fn walk(&self, alloc: Global, ops: &[CursorOp]) -> Result<Vec<CursorAnswer>, AllocError> {
        walk::<K>(alloc, self.as_bytes(), ops)
    }
}

impl<'a, K: HashedKind> HashedTrie<K, &'a [u8]> {
    /// Returns a cursor at the beginning of all keys. It borrows from the trie's bytes, so it may
    /// outlive the trie.
    pub fn into_cursor(self) -> HashedCursor<'a, K> {
        HashedCursor::new(self.into_store())
    }
}
