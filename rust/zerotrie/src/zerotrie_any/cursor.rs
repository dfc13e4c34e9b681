// Made from crates/zerotrie_any/src/cursor.rt by rust/make: edit that.
//! Cursors, which follow a key byte by byte.

use crate::rstd::prelude::*;
use crate::zerotrie_any::trie::{ZeroTrie, ZeroTrieFlavor, by_flavor};
use crate::zerotrie_any::walks::{CursorAnswer, CursorOp, walk};
use crate::rstd::alloc::{AllocError, Global};
use crate::zerotrie_core::{ByteProbeResult, SpanCursor, TrieStore, ZeroTrieIterator, ZeroTrieStream};

/// A cursor in a `ZeroTrie`.
///
/// ```
/// # use zerotrie::{rstd::examples::*, zerotrie_any::*, zerotrie_base::*, zerotrie_core::*, zerotrie_build::*};
/// let trie = ZeroTrie::of_kind::<Hash>(b"a\xA2\xC3\xA5\x85".as_slice());
/// let mut cursor = trie.cursor();
/// assert_eq!(cursor.step(b'a'), Some(b'a'));
/// assert_eq!(cursor.step(b'b'), None);
/// assert!(cursor.is_empty());
/// # Ok::<(), Fail>(())
/// ```
///
/// It represents what remains of all keys that begin with the bytes that were stepped. It borrows
/// from the trie's bytes and does not allocate. Each clone moves on its own. On malformed bytes
/// results are unspecified; no call panics or reads outside them.
///
/// The cursor may be inside a span, whose bytes are one edge after another with no value between
/// them.
#[derive(Debug)]
pub struct ZeroTrieCursor<'a> {
    flavor: ZeroTrieFlavor,
    place: SpanCursor<'a>,
}

impl<'a> ZeroTrieCursor<'a> {
    fn new(flavor: ZeroTrieFlavor, bytes: &'a [u8]) -> Self {
        ZeroTrieCursor {
            flavor,
            place: SpanCursor::new(bytes),
        }
    }

    /// Returns the trie of what remains of the keys. It borrows from the trie's bytes, so it may
    /// outlive the cursor.
    ///
    /// ```
    /// # use zerotrie::{rstd::examples::*, zerotrie_any::*, zerotrie_base::*, zerotrie_core::*, zerotrie_build::*};
    /// let trie = ZeroTrie::of_kind::<Simple>(b"in\x83to\x84".as_slice());
    /// let mut cursor = trie.cursor();
    /// cursor.step(b'i');
    /// let suffixes = cursor.into_suffix_trie().ok_or("inside a span")?;
    /// assert_eq!(suffixes.get(b"nto"), Some(4));
    /// # Ok::<(), Fail>(())
    /// ```
    ///
    /// Returns `None` inside a span, where the bytes that remain are not a trie.
    pub fn into_suffix_trie(self) -> Option<ZeroTrie<&'a [u8]>> {
        let store = self.place.rest()?;
        Some(ZeroTrie {
            flavor: self.flavor,
            store,
        })
    }

    /// Returns a lending iterator over what remains of the keys, with their values: each key is
    /// borrowed from one buffer. Does not change the cursor. The cursor may be inside a span.
    ///
    /// ```
    /// # use zerotrie::{rstd::examples::*, zerotrie_any::*, zerotrie_base::*, zerotrie_core::*, zerotrie_build::*};
    /// let trie = ZeroTrie::of_kind::<Simple>(b"in\x83to\x84".as_slice());
    /// let mut cursor = trie.cursor();
    /// cursor.step(b'i');
    /// let mut pairs = cursor.stream(Global)?;
    /// assert!(pairs.advance()?);
    /// assert_eq!((pairs.key(), pairs.value()), (b"n".as_slice(), 3));
    /// # Ok::<(), Fail>(())
    /// ```
    ///
    /// An error means that an allocation failed.
    pub fn stream(&self, alloc: Global) -> Result<ZeroTrieStream<'a>, AllocError> {
        let place = self.place.clone();
        by_flavor!(self.flavor, ZeroTrieStream::from_cursor::<_>(alloc, place))
    }

    /// Returns an iterator over what remains of the keys, with their values. Does not change the
    /// cursor. The cursor may be inside a span. An error means that an allocation failed.
    pub fn iter(&self, alloc: Global) -> Result<ZeroTrieIterator<'a>, AllocError> {
        let place = self.place.clone();
        by_flavor!(
            self.flavor,
            ZeroTrieIterator::from_cursor::<_>(alloc, place)
        )
    }

    /// Returns whether nothing remains: there is no value and no edge.
    pub fn is_empty(&self) -> bool {
        self.place.is_empty()
    }

    /// Takes the value of the key that ends here, so that a second call returns `None`. If there is
    /// none, returns `None` and leaves the cursor unchanged.
    pub fn take_value(&mut self) -> Option<usize> {
        self.place.take_value()
    }

    /// Follows the edge for this byte, past a value if there is one, and returns the byte. If there
    /// is no such edge, returns `None`, and the cursor becomes empty.
    pub fn step(&mut self, byte: u8) -> Option<u8> {
        by_flavor!(self.flavor, SpanCursor::step::<_>(&mut self.place, byte))
    }

    /// Follows the edge with this index, past a value if there is one, and returns its byte and the
    /// number of edges here.
    ///
    /// ```
    /// # use zerotrie::{rstd::examples::*, zerotrie_any::*, zerotrie_base::*, zerotrie_core::*, zerotrie_build::*};
    /// let trie = ZeroTrie::of_kind::<Simple>(b"\xC2ab\x01\x85\x86".as_slice());
    /// let mut cursor = trie.cursor();
    /// let edge = ByteProbeResult { byte: b'b', total_siblings: 2 };
    /// assert_eq!(cursor.probe(1), Some(edge));
    /// assert_eq!(cursor.take_value(), Some(6));
    /// # Ok::<(), Fail>(())
    /// ```
    ///
    /// The edges of a branch are numbered in the order of its table. A literal or a byte of a span
    /// is one edge. If no edge has this index, returns `None`, and the cursor becomes empty.
    pub fn probe(&mut self, index: usize) -> Option<ByteProbeResult> {
        by_flavor!(self.flavor, SpanCursor::probe::<_>(&mut self.place, index))
    }
}

impl<'a> Clone for ZeroTrieCursor<'a> {
    fn clone(&self) -> Self {
        ZeroTrieCursor {
            flavor: self.flavor,
            place: self.place.clone(),
        }
    }
}

impl<S: TrieStore> ZeroTrie<S> {
    /// Returns a cursor at the beginning of all keys.
    pub fn cursor(&self) -> ZeroTrieCursor<'_> {
        ZeroTrieCursor::new(self.flavor, self.as_bytes())
    }

    /// Makes these calls on a new cursor, one after another, and returns their results.
    ///
    /// ```
    /// # use zerotrie::{rstd::examples::*, zerotrie_any::*, zerotrie_base::*, zerotrie_core::*, zerotrie_build::*};
    /// let trie = ZeroTrie::of_kind::<Ext>(b"a\x85".as_slice());
    /// let answers = trie.walk(Global, &[CursorOp::Step(b'a'), CursorOp::Take])?;
    /// assert_eq!(answers[0], CursorAnswer::Stepped(Some(b'a')));
    /// assert_eq!(answers[1], CursorAnswer::Taken(Some(5)));
    /// # Ok::<(), Fail>(())
    /// ```
    ///
    /// An error means that an allocation failed.
    pub fn walk(&self, alloc: Global, ops: &[CursorOp]) -> Result<Vec<CursorAnswer>, AllocError> {
        let bytes = self.as_bytes();
        by_flavor!(self.flavor, walk::<_>(alloc, bytes, ops))
    }
}

impl<'a> ZeroTrie<&'a [u8]> {
    /// Returns a cursor at the beginning of all keys. It borrows from the trie's bytes, so it may
    /// outlive the trie.
    pub fn into_cursor(self) -> ZeroTrieCursor<'a> {
        ZeroTrieCursor::new(self.flavor, self.store)
    }
}
