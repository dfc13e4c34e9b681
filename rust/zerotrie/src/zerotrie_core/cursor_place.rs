// Made from crates/zerotrie_core/src/cursor_place.rt by rust/make: edit that.
//! A cursor by numbers, for callers that keep no slices.

use crate::zerotrie_core::cursor::take_value;
use crate::zerotrie_core::edges::Along;
use crate::zerotrie_core::span_cursor::{ByteProbeResult, SpanCursor, like_at, numbered_at};
use crate::zerotrie_base::ZeroTrieWithOptions;

/// A cursor in the bytes of a trie, by numbers. The rest of a run is the bytes from `run` to
/// `trie`, and the trie after it is those from `trie` to `end`.
///
/// ```
/// # use zerotrie::{rstd::examples::*, zerotrie_core::*, zerotrie_base::*};
/// let bytes = b"a\xA2\xC3\xA5\x85";            // the key "aå" with value 5
/// let mut place = CursorPlace::new(bytes);
/// assert_eq!(place.step::<Hash>(bytes, b'a'), Some(b'a'));
/// assert_eq!(place.step::<Hash>(bytes, 0xC3), Some(0xC3));
/// assert_eq!(place, CursorPlace { run: 3, trie: 4, end: 5 });
/// assert_eq!(place.step::<Hash>(bytes, 0xA5), Some(0xA5));
/// assert_eq!(place.take_value(bytes), Some(5));
/// assert!(place.cursor(bytes).is_empty());
/// # Ok::<(), Fail>(())
/// ```
///
/// The bytes are handed to each call. Any bytes and any numbers are allowed: numbers that do not
/// ascend, or are beyond the bytes, are an empty cursor. So a caller that keeps a cursor too long,
/// or hands over other bytes, reads a wrong result, and nothing outside the bytes. It has the layout
/// that C gives it.
#[repr(C)]
#[derive(Clone, Copy, Debug, PartialEq, Eq)]
pub struct CursorPlace {
    /// Where the rest of a run begins. Outside of spans this is `trie`.
    pub run: usize,
    /// Where the trie after the run begins.
    pub trie: usize,
    /// Where the trie ends.
    pub end: usize,
}

impl CursorPlace {
    /// Returns the cursor at the beginning of a trie.
    #[inline]
    pub fn new(bytes: &[u8]) -> Self {
        CursorPlace {
            run: 0,
            trie: 0,
            end: bytes.len(),
        }
    }

    /// Returns an empty cursor.
    #[inline]
    pub fn nowhere() -> Self {
        CursorPlace {
            run: 0,
            trie: 0,
            end: 0,
        }
    }

    /// Returns the cursor over slices of these bytes.
    #[inline(always)]
    pub fn cursor<'a>(&self, bytes: &'a [u8]) -> SpanCursor<'a> {
        let (run, trie) = self.within(bytes).parts(bytes);
        SpanCursor::from_parts(run, trie)
    }

    /// Returns these numbers, or those of an empty cursor if they are none in the bytes.
    #[inline(always)]
    fn within(self, bytes: &[u8]) -> Self {
        if self.run <= self.trie && self.trie <= self.end && self.end <= bytes.len() {
            self
        } else {
            CursorPlace::nowhere()
        }
    }

    /// Returns the rest of the run, and the trie after it.
    #[inline(always)]
    fn parts(self, bytes: &[u8]) -> (&[u8], &[u8]) {
        (&bytes[self.run..self.trie], &bytes[self.trie..self.end])
    }

    /// Returns the cursor after an edge.
    #[inline(always)]
    fn behind(self, along: Along<'_>) -> Self {
        let end = self.end - along.after;
        let trie = end - along.trie.len();
        let run = trie - along.run.len();
        CursorPlace { run, trie, end }
    }

    /// Follows the edge that equals the byte in this kind, as `SpanCursor::step` does.
    ///
    /// Skips a value before the edge. If no edge equals the byte, returns `None` and leaves the
    /// cursor empty.
    #[inline(never)]
    pub fn step<K: ZeroTrieWithOptions>(&mut self, bytes: &[u8], byte: u8) -> Option<u8> {
        let place = self.within(bytes);
        let (run, trie) = place.parts(bytes);
        let Some(along) = like_at::<K>(run, trie, byte) else {
            *self = CursorPlace::nowhere();
            return None;
        };
        *self = place.behind(along);
        Some(along.edge)
    }

    /// Follows the edge with this number, and returns its byte and the number of edges, as
    /// `SpanCursor::probe` does.
    ///
    /// Skips a value before the edge. If there is no edge with this number, returns `None` and
    /// leaves the cursor empty.
    #[inline]
    pub fn probe<K: ZeroTrieWithOptions>(
        &mut self,
        bytes: &[u8],
        index: usize,
    ) -> Option<ByteProbeResult> {
        let place = self.within(bytes);
        let (run, trie) = place.parts(bytes);
        let Some((along, edges)) = numbered_at::<K>(run, trie, index) else {
            *self = CursorPlace::nowhere();
            return None;
        };
        *self = place.behind(along);
        Some(ByteProbeResult {
            byte: along.edge,
            total_siblings: edges as u16,
        })
    }

    /// Takes the value of the empty key. Returns `None` if there is none, and then changes nothing.
    #[inline]
    pub fn take_value(&mut self, bytes: &[u8]) -> Option<usize> {
        let place = self.within(bytes);
        let (run, mut trie) = place.parts(bytes);
        if !run.is_empty() {
            return None;
        }
        let value = take_value(&mut trie)?;
        let begin = place.end - trie.len();
        *self = CursorPlace {
            run: begin,
            trie: begin,
            end: place.end,
        };
        Some(value)
    }
}
