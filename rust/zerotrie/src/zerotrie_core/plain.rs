// Made from crates/zerotrie_core/src/plain.rt by rust/make: edit that.
//! The plain encoder of SimpleAscii tries.

use crate::rstd::prelude::*;

mod nodes;

use nodes::{push_branch, push_value};
use crate::rstd::alloc::Global;
use crate::zerotrie_base::{ZeroTrieBuildError, are_ascii};

fn is_ascending(items: &[(&[u8], usize)]) -> bool {
    for i in 1..items.len() {
        let (key, _) = items[i - 1];
        let (next, _) = items[i];
        if !(key < next) {
            return false;
        }
    }
    true
}

/// Returns the length of the key. From this call a proof learns that it is below 2^64.
fn key_len(key: &[u8]) -> usize {
    key.len()
}

/// Returns how many of the first items have this byte at `depth`.
fn group_len(items: &[(&[u8], usize)], depth: usize, byte: u8) -> usize {
    for (i, (key, _)) in items.iter().enumerate() {
        if key.len() <= depth || key[depth] != byte {
            return i;
        }
    }
    items.len()
}

/// Splits off the first items that have the same byte at `depth`. Returns the byte, these items and
/// the others.
fn first_group<'a, 'k>(
    items: &'a [(&'k [u8], usize)],
    depth: usize,
) -> (u8, &'a [(&'k [u8], usize)], &'a [(&'k [u8], usize)]) {
    let (key, _) = items[0];
    let byte = key[depth];
    let (group, others) = items.split_at(group_len(items, depth, byte));
    (byte, group, others)
}

/// Writes the values and literals before the first branch. Returns the number of items that end
/// there, and the depth of the branch.
fn push_run(
    out: &mut Vec<u8>,
    items: &[(&[u8], usize)],
    depth: usize,
) -> Result<(usize, usize), ZeroTrieBuildError> {
    let mut at = 0;
    let mut depth = depth;
    while at < items.len() {
        let (key, value) = items[at];
        if key_len(key) == depth {
            push_value(out, value)?;
            at += 1;
        } else {
            let (_, rest) = items.split_at(at);
            let (byte, _, others) = first_group(rest, depth);
            if !others.is_empty() {
                return Ok((at, depth));
            }
            out.push(byte)?;
            depth += 1;
        }
    }
    Ok((at, depth))
}

/// Writes the encoding of the items without the first `depth` bytes of their keys.
fn encode(
    alloc: Global,
    out: &mut Vec<u8>,
    items: &[(&[u8], usize)],
    depth: usize,
) -> Result<(), ZeroTrieBuildError> {
    let (ended, depth) = push_run(out, items, depth)?;
    let (_, mut rest) = items.split_at(ended);
    if rest.is_empty() {
        return Ok(());
    }
    let mut edges = Vec::new(alloc);
    let mut starts = Vec::new(alloc);
    let mut targets = Vec::new(alloc);
    while !rest.is_empty() {
        let (byte, group, others) = first_group(rest, depth);
        edges.push(byte)?;
        starts.push(targets.len())?;
        encode(alloc, &mut targets, group, depth + 1)?;
        rest = others;
    }
    let (_, offsets) = starts.split_at(1);
    push_branch(out, &edges, offsets, &targets)
}

/// Returns the encoding of these items as a SimpleAscii trie.
///
/// ```
/// # use zerotrie::{rstd::examples::*, zerotrie_core::*, zerotrie_base::*};
/// let items: [(&[u8], usize); 3] = [(b"a", 1), (b"abc", 2), (b"abd", 3)];
/// let text = plain_encode(Global, &items)?;
/// assert_eq!(text.as_slice(), b"a\x81b\xC2cd\x01\x82\x83".as_slice());
/// # Ok::<(), Fail>(())
/// ```
///
/// Each item is a key and its value. The encoding is canonical: no other bytes mean the map of the
/// items. It is empty if there are no items. A value comes after its key, in one to ten bytes. A
/// byte that all keys share at a place is stored as it is. Where keys differ there is a branch: a
/// head with the number of edges and the width of an offset, the edges in ascending order, where
/// each target but the first begins, in bytes from the first one on, and the targets.
///
/// Reads the bytes of each key a few times, and copies each target once for each branch above it.
/// Recursion is as deep as there are branches on the path of one key, however long the keys are.
///
/// # Errors
///
/// - `Unsorted`: the keys do not strictly ascend by their bytes; for example, if one is there
///   twice.
/// - `NonAsciiError`: the keys ascend, and one has a byte of 128 or more.
/// - `CapacityExceeded`: otherwise, if the targets of a branch have 2^32 bytes or more in total,
///   which offsets of four bytes can't reach.
/// - `OutOfMemory`: an allocation failed.
pub fn plain_encode(alloc: Global, items: &[(&[u8], usize)]) -> Result<Vec<u8>, ZeroTrieBuildError> {
    if !is_ascending(items) {
        return Err(ZeroTrieBuildError::Unsorted);
    }
    if !are_ascii(items) {
        return Err(ZeroTrieBuildError::NonAsciiError);
    }
    let mut text = Vec::new(alloc);
    encode(alloc, &mut text, items, 0)?;
    Ok(text)
}
