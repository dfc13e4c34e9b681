// Made from crates/zerotrie_ascii/src/cursor.rt by rust/make: edit that.
//! Cursors, which follow a key byte by byte.

use crate::rstd::prelude::*;
use crate::zerotrie_ascii::list::ZeroTrieStringIterator;
use crate::zerotrie_ascii::trie::{AsciiKind, AsciiTrie};
use crate::rstd::alloc::{AllocError, Global};
use crate::rstd::fmt;
use core::marker::PhantomData;
use crate::zerotrie_any::{CursorAnswer, CursorOp, walk};
use crate::zerotrie_core::{
    AsciiProbeResult, Ignore, Simple, TrieStore, ZeroTrieStream, probe, step, take_value,
};

/// A cursor in a trie over ASCII keys. `K` is the kind.
///
/// Use it by the name of a kind: `ZeroTrieSimpleAsciiCursor` or `ZeroAsciiIgnoreCaseTrieCursor`.
///
/// It represents what remains of all keys that begin with the bytes that were stepped. It borrows
/// from the trie's bytes and does not allocate. Each clone moves on its own. On malformed bytes
/// results are unspecified; no call panics or reads outside them.
#[derive(Debug)]
pub struct AsciiCursor<'a, K> {
    trie: &'a [u8],
    kind: PhantomData<K>,
}

/// A cursor in a `ZeroTrieSimpleAscii`.
///
/// ```
/// # use zerotrie::{rstd::examples::*, zerotrie_ascii::*, zerotrie_core::*, zerotrie_build::*, zerotrie_any::*};
/// let trie = ZeroTrieSimpleAscii::from_bytes(b"abc\x80def\x81");
/// let mut cursor = trie.cursor();
/// cursor.step(b'a');
/// cursor.step(b'b');
/// cursor.step(b'c');
/// assert_eq!(cursor.take_value(), Some(0));
/// cursor.step(b'x');
/// assert!(cursor.is_empty());
/// # Ok::<(), Fail>(())
/// ```
pub type ZeroTrieSimpleAsciiCursor<'a> = AsciiCursor<'a, Simple>;

/// A cursor in a `ZeroAsciiIgnoreCaseTrie`.
///
/// ```
/// # use zerotrie::{rstd::examples::*, zerotrie_ascii::*, zerotrie_core::*, zerotrie_build::*, zerotrie_any::*};
/// let trie = ZeroAsciiIgnoreCaseTrie::from_bytes(b"aB\x85");
/// let mut cursor = trie.cursor();
/// assert_eq!(cursor.step(b'A'), Some(b'a'));
/// assert_eq!(cursor.step(b'b'), Some(b'B'));
/// assert_eq!(cursor.take_value(), Some(5));
/// # Ok::<(), Fail>(())
/// ```
pub type ZeroAsciiIgnoreCaseTrieCursor<'a> = AsciiCursor<'a, Ignore>;

impl<'a, K> AsciiCursor<'a, K> {
    fn new(trie: &'a [u8]) -> Self {
        AsciiCursor {
            trie,
            kind: PhantomData,
        }
    }

    /// Returns the trie of what remains of the keys. It borrows from the trie's bytes, so it may
    /// outlive the cursor.
    ///
    /// ```
    /// # use zerotrie::{rstd::examples::*, zerotrie_ascii::*, zerotrie_core::*, zerotrie_build::*, zerotrie_any::*};
    /// let trie = ZeroTrieSimpleAscii::from_bytes(b"abc\x80def\x81");
    /// let mut cursor = trie.cursor();
    /// cursor.step(b'a');
    /// assert_eq!(cursor.into_suffix_trie().get(b"bcdef"), Some(1));
    /// # Ok::<(), Fail>(())
    /// ```
    pub fn into_suffix_trie(self) -> AsciiTrie<K, &'a [u8]> {
        let AsciiCursor { trie, kind: _ } = self;
        AsciiTrie::from_bytes(trie)
    }
}

impl<'a, K: AsciiKind> AsciiCursor<'a, K> {
    /// Returns a lending iterator over what remains of the keys, with their values: each key is
    /// borrowed from one buffer. Does not change the cursor.
    ///
    /// ```
    /// # use zerotrie::{rstd::examples::*, zerotrie_ascii::*, zerotrie_core::*, zerotrie_build::*, zerotrie_any::*};
    /// let trie = ZeroTrieSimpleAscii::from_bytes(b"in\x83to\x84");
    /// let mut cursor = trie.cursor();
    /// cursor.step(b'i');
    /// let mut pairs = cursor.stream(Global);
    /// assert!(pairs.advance()?);
    /// assert_eq!((pairs.key(), pairs.value()), (b"n".as_slice(), 3));
    /// # Ok::<(), Fail>(())
    /// ```
    ///
    /// Does not allocate before the first pair, nor for each pair.
    pub fn stream(&self, alloc: Global) -> ZeroTrieStream<'a> {
        ZeroTrieStream::new::<K>(alloc, self.trie)
    }

    /// Returns an iterator over what remains of the keys, with their values. Does not change the
    /// cursor.
    pub fn iter(&self, alloc: Global) -> ZeroTrieStringIterator<'a> {
        ZeroTrieStringIterator::new::<K>(alloc, self.trie)
    }

    /// Returns whether nothing remains: there is no value and no edge.
    pub fn is_empty(&self) -> bool {
        self.trie.is_empty()
    }

    /// Takes the value of the key that ends here, so that a second call returns `None`. If there is
    /// none, returns `None` and leaves the cursor unchanged.
    pub fn take_value(&mut self) -> Option<usize> {
        take_value(&mut self.trie)
    }

    #[inline(always)]
    fn step_edge(&mut self, byte: u8) -> Option<u8> {
        step::<K>(&mut self.trie, byte)
    }
}

impl<'a> AsciiCursor<'a, Simple> {
    /// Follows the edge for this byte, past a value if there is one. If there is no such edge, the
    /// cursor becomes empty.
    #[inline(always)]
    pub fn step(&mut self, byte: u8) {
        self.step_edge(byte);
    }
}

impl<'a> AsciiCursor<'a, Ignore> {
    /// Follows the edge for this byte, ignoring case, past a value if there is one, and returns the
    /// byte as stored. If there is no such edge, returns `None`, and the cursor becomes empty.
    #[inline(always)]
    pub fn step(&mut self, byte: u8) -> Option<u8> {
        self.step_edge(byte)
    }
}

impl<'a, K: AsciiKind> AsciiCursor<'a, K> {
    /// Follows the edge with this index, past a value if there is one, and returns its byte and the
    /// number of edges here.
    ///
    /// ```
    /// # use zerotrie::{rstd::examples::*, zerotrie_ascii::*, zerotrie_core::*, zerotrie_build::*, zerotrie_any::*};
    /// let trie = ZeroTrieSimpleAscii::from_bytes(b"\xC2ab\x01\x85\x86");
    /// let mut cursor = trie.cursor();
    /// let edge = AsciiProbeResult { byte: b'b', total_siblings: 2 };
    /// assert_eq!(cursor.probe(1), Some(edge));
    /// assert_eq!(cursor.probe(0), None);
    /// # Ok::<(), Fail>(())
    /// ```
    ///
    /// The edges of a branch are numbered in the order of its table. A literal is one edge. If no
    /// edge has this index, returns `None`, and the cursor becomes empty.
    pub fn probe(&mut self, index: usize) -> Option<AsciiProbeResult> {
        probe::<K>(&mut self.trie, index)
    }

    /// Steps by an ASCII character. Any other character is an error and leaves the cursor
    /// unchanged.
    pub fn write_char(&mut self, c: char) -> fmt::Result {
        if !c.is_ascii() {
            return Err(fmt::Error);
        }
        self.step_edge(c as u8);
        Ok(())
    }
}

impl<'a, K> Clone for AsciiCursor<'a, K> {
    fn clone(&self) -> Self {
        AsciiCursor::new(self.trie)
    }
}

/// Steps by each byte of what is written, so that `write!` follows what it prints.
impl<'a, K: AsciiKind> fmt::Write for AsciiCursor<'a, K> {
    /// Steps by each byte before the first that is not ASCII, which is an error.
    fn write_str(&mut self, s: &str) -> fmt::Result {
        for byte in s.as_bytes() {
            if !byte.is_ascii() {
                return Err(fmt::Error);
            }
            self.step_edge(*byte);
        }
        Ok(())
    }
}

impl<K: AsciiKind, S: TrieStore> AsciiTrie<K, S> {
    /// Returns a cursor at the beginning of all keys.
    pub fn cursor(&self) -> AsciiCursor<'_, K> {
        AsciiCursor::new(self.as_bytes())
    }

    /// Returns the value of the key that a closure writes to a cursor, or `None` if the closure
    /// fails.
    ///
    /// ```
    /// # use zerotrie::{rstd::examples::*, zerotrie_ascii::*, zerotrie_core::*, zerotrie_build::*, zerotrie_any::*};
    /// use zerotrie::rstd::fmt::Write;
    ///
    /// let trie = ZeroTrieSimpleAscii::from_bytes(b"abc\x85");
    /// assert_eq!(trie.get_with_write_fn(|cursor| write!(cursor, "a{}", "bc")), Some(5));
    /// # Ok::<(), Fail>(())
    /// ```
    ///
    /// The value is the one at the cursor after the closure. The closure may also take values and
    /// probe, or replace the cursor by another.
    pub fn get_with_write_fn<'a, F: FnOnce(&mut AsciiCursor<'a, K>) -> fmt::Result>(
        &'a self,
        write: F,
    ) -> Option<usize> {
        let mut cursor = self.cursor();
        match write(&mut cursor) {
            Ok(()) => cursor.take_value(),
            Err(_) => None,
        }
    }

    /// Makes these calls on a new cursor, one after another, and returns their results.
    ///
    /// ```
    /// # use zerotrie::{rstd::examples::*, zerotrie_ascii::*, zerotrie_core::*, zerotrie_build::*, zerotrie_any::*};
    /// let trie = ZeroTrieSimpleAscii::from_bytes(b"a\x85");
    /// let answers = trie.walk(Global, &[CursorOp::Step(b'a'), CursorOp::Take])?;
    /// assert_eq!(answers[0], CursorAnswer::Stepped(Some(b'a')));
    /// assert_eq!(answers[1], CursorAnswer::Taken(Some(5)));
    /// # Ok::<(), Fail>(())
    /// ```
    ///
    /// An error means that an allocation failed.
    pub fn walk(&self, alloc: Global, ops: &[CursorOp]) -> Result<Vec<CursorAnswer>, AllocError> {
        walk::<K>(alloc, self.as_bytes(), ops)
    }
}

impl<'a, K: AsciiKind> AsciiTrie<K, &'a [u8]> {
    /// Returns a cursor at the beginning of all keys. It borrows from the trie's bytes, so it may
    /// outlive the trie.
    pub fn into_cursor(self) -> AsciiCursor<'a, K> {
        AsciiCursor::new(self.into_store())
    }
}
