// Made from crates/zerotrie_core/src/span_cursor.rt by rust/make: edit that.
//! The cursor of any kind, which may be inside a span.

use crate::zerotrie_core::cursor::take_value;
use crate::zerotrie_core::edges::{Along, edge_like, edge_numbered, run_edge_like, run_edge_numbered};
use crate::zerotrie_base::ZeroTrieWithOptions;

/// The result of a probe in a trie of any kind.
#[derive(Clone, Copy, Debug, PartialEq, Eq)]
#[cfg_attr(not(feature = "__internal"), non_exhaustive)]
pub struct ByteProbeResult {
    /// The byte of the edge.
    pub byte: u8,
    /// The number of edges, this one included.
    pub total_siblings: u16,
}

/// A cursor in a trie of any kind.
///
/// It is between two bytes of a key, and may be inside the run of a span. There each byte of the
/// rest of the run is one edge, with no value between them.
///
/// It borrows two slices of the store, the rest of the run and the trie after it, and never
/// allocates. On malformed bytes its results are unspecified; it never panics or reads outside
/// them.
#[derive(Clone, Debug)]
pub struct SpanCursor<'a> {
    run: &'a [u8],
    trie: &'a [u8],
}

/// Like `edge_like`, after the rest of a run.
#[inline(always)]
pub(in crate::made::zerotrie_core) fn like_at<'a, K: ZeroTrieWithOptions>(
    run: &'a [u8],
    trie: &'a [u8],
    byte: u8,
) -> Option<Along<'a>> {
    if run.is_empty() {
        edge_like::<K>(trie, byte)
    } else {
        run_edge_like::<K>(run, trie, byte)
    }
}

/// Like `edge_numbered`, after the rest of a run.
#[inline(always)]
pub(in crate::made::zerotrie_core) fn numbered_at<'a, K: ZeroTrieWithOptions>(
    run: &'a [u8],
    trie: &'a [u8],
    index: usize,
) -> Option<(Along<'a>, usize)> {
    if run.is_empty() {
        edge_numbered::<K>(trie, index)
    } else {
        run_edge_numbered(run, trie, index)
    }
}

impl<'a> SpanCursor<'a> {
    #[inline(always)]
    fn behind(along: Along<'a>) -> Self {
        SpanCursor {
            run: along.run,
            trie: along.trie,
        }
    }

    /// Returns a cursor at the beginning of a trie.
    #[inline]
    pub fn new(bytes: &'a [u8]) -> Self {
        SpanCursor {
            run: &[],
            trie: bytes,
        }
    }

    /// Returns a cursor at the beginning of a run, each byte of which is an edge, and of the trie
    /// after it.
    #[inline]
    pub fn from_parts(run: &'a [u8], trie: &'a [u8]) -> Self {
        SpanCursor { run, trie }
    }

    /// Returns the rest of the run that the cursor is in, which is empty outside of spans, and the
    /// trie after it.
    #[inline]
    pub fn parts(&self) -> (&'a [u8], &'a [u8]) {
        (self.run, self.trie)
    }

    /// Returns whether no key continues from here. An empty cursor has no value either.
    #[inline]
    pub fn is_empty(&self) -> bool {
        self.run.is_empty() && self.trie.is_empty()
    }

    /// Returns the trie of what all keys have from here on, or `None` inside a span.
    #[inline]
    pub fn rest(&self) -> Option<&'a [u8]> {
        self.run.is_empty().then_some(self.trie)
    }

    /// Takes the value of the empty key. Returns `None` if there is none, and then changes nothing.
    #[inline]
    pub fn take_value(&mut self) -> Option<usize> {
        if self.run.is_empty() {
            take_value(&mut self.trie)
        } else {
            None
        }
    }

    /// Follows the edge that equals the byte in this kind, and returns the byte of the edge.
    ///
    /// Skips a value before the edge. If no edge equals the byte, returns `None` and leaves the
    /// cursor empty.
    #[inline(always)]
    pub fn step<K: ZeroTrieWithOptions>(&mut self, byte: u8) -> Option<u8> {
        let Some(along) = like_at::<K>(self.run, self.trie, byte) else {
            *self = SpanCursor::new(&[]);
            return None;
        };
        *self = SpanCursor::behind(along);
        Some(along.edge)
    }

    /// Follows the edge with this number, and returns its byte and the number of edges.
    ///
    /// Skips a value before the edge. If there is no edge with this number, returns `None` and
    /// leaves the cursor empty.
    #[inline]
    pub fn probe<K: ZeroTrieWithOptions>(&mut self, index: usize) -> Option<ByteProbeResult> {
        let Some((along, edges)) = numbered_at::<K>(self.run, self.trie, index) else {
            *self = SpanCursor::new(&[]);
            return None;
        };
        *self = SpanCursor::behind(along);
        Some(ByteProbeResult {
            byte: along.edge,
            total_siblings: edges as u16,
        })
    }
}
