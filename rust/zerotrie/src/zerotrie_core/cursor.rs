// Made from crates/zerotrie_core/src/cursor.rt by rust/make: edit that.
//! The calls of a cursor over ASCII keys. The cursor is the bytes that are left of a trie.
//!
//! A cursor follows the edges of a trie. The bytes that are left are again a trie: its keys are the
//! rests of all keys that begin with the edges so far. Nothing is copied or allocated.

use crate::zerotrie_core::edges::{edge_like, edge_numbered};
use crate::zerotrie_base::{ZeroTrieWithOptions, read_varint_meta3};

/// The result of a probe in a trie over ASCII keys.
#[derive(Clone, Copy, Debug, PartialEq, Eq)]
#[cfg_attr(not(feature = "__internal"), non_exhaustive)]
pub struct AsciiProbeResult {
    /// The byte of the edge.
    pub byte: u8,
    /// The number of edges, this one included.
    pub total_siblings: u8,
}

/// Returns the value at the beginning of the bytes, and the bytes after it.
#[inline(always)]
fn first_value(bytes: &[u8]) -> Option<(usize, &[u8])> {
    let (lead, rest) = bytes.split_first()?;
    let lead = *lead;
    if lead < 128 || lead >= 160 {
        return None;
    }
    read_varint_meta3(lead, rest)
}

/// Follows the edge that equals the byte in this kind, and returns the byte of the edge.
///
/// ```
/// # use zerotrie::{rstd::examples::*, zerotrie_core::*, zerotrie_base::*};
/// let mut trie = &[0x61, 0x42, 0x85][..];      // the key "aB" with value 5
/// assert_eq!(step::<Ignore>(&mut trie, b'A'), Some(b'a'));
/// assert_eq!(step::<Ignore>(&mut trie, b'b'), Some(b'B'));
/// assert_eq!(trie, [0x85].as_slice());
/// assert_eq!(step::<Ignore>(&mut trie, b'c'), None);
/// assert!(trie.is_empty());
/// # Ok::<(), Fail>(())
/// ```
///
/// Skips a value before the edge. If no edge equals the byte, returns `None` and leaves no bytes.
/// In `Ignore` an ASCII letter equals both its cases, and the result is the byte as stored.
///
/// On malformed bytes the result is unspecified; it never panics or reads outside them. Does not
/// allocate. The kind must be over ASCII keys; `SpanCursor` is the cursor of any kind.
#[inline(always)]
pub fn step<K: ZeroTrieWithOptions>(bytes: &mut &[u8], byte: u8) -> Option<u8> {
    let Some(along) = edge_like::<K>(bytes, byte) else {
        *bytes = &[];
        return None;
    };
    *bytes = along.trie;
    Some(along.edge)
}

/// Takes the value of the empty key from the beginning of a trie of any kind. Returns `None` if
/// there is none, and then changes nothing.
///
/// ```
/// # use zerotrie::{rstd::examples::*, zerotrie_core::*, zerotrie_base::*};
/// let mut trie = &[0x85, 0x61, 0x86][..];      // the keys "" and "a" with values 5 and 6
/// assert_eq!(take_value(&mut trie), Some(5));
/// assert_eq!(trie, [0x61, 0x86].as_slice());
/// assert_eq!(take_value(&mut trie), None);
/// # Ok::<(), Fail>(())
/// ```
///
/// On malformed bytes the result is unspecified; it never panics or reads outside them. Does not
/// allocate.
#[inline]
pub fn take_value(bytes: &mut &[u8]) -> Option<usize> {
    let (value, rest) = first_value(bytes)?;
    *bytes = rest;
    Some(value)
}

/// Follows the edge with this number, and returns its byte and the number of edges.
///
/// ```
/// # use zerotrie::{rstd::examples::*, zerotrie_core::*, zerotrie_base::*};
/// let mut trie = &[0xC2, 0x61, 0x62, 0x01, 0x85, 0x86][..];    // "a" and "b" with values 5 and 6
/// let edge = AsciiProbeResult { byte: b'b', total_siblings: 2 };
/// assert_eq!(probe::<Simple>(&mut trie, 1), Some(edge));
/// assert_eq!(probe::<Simple>(&mut trie, 1), None);
/// assert!(trie.is_empty());
/// # Ok::<(), Fail>(())
/// ```
///
/// Skips a value before the edge. The edges of a branch are numbered in the order of their table,
/// and a literal is one edge. If there is no edge with this number, returns `None` and leaves no
/// bytes.
///
/// On malformed bytes the result is unspecified; it never panics or reads outside them. Does not
/// allocate.
#[inline]
pub fn probe<K: ZeroTrieWithOptions>(bytes: &mut &[u8], index: usize) -> Option<AsciiProbeResult> {
    let Some((along, edges)) = edge_numbered::<K>(bytes, index) else {
        *bytes = &[];
        return None;
    };
    *bytes = along.trie;
    Some(AsciiProbeResult {
        byte: along.edge,
        total_siblings: edges.min(255) as u8,
    })
}
