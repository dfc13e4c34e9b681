// Made from crates/zerotrie_search/src/sorted/edges.rt by rust/make: edit that.
//! The edges of a place in the order of bytes.

use crate::zerotrie_core::laws::steps_answer_stored_bytes;
use crate::zerotrie_core::{CursorPlace, ZeroTrieBuilderOptions, ZeroTrieWithOptions, by_kind};

/// Returns whether an edge is below a limit, if there is one.
fn is_under(limit: Option<usize>, byte: u8) -> bool {
    match limit {
        None => true,
        Some(limit) => (byte as usize) < limit,
    }
}

/// Returns the greater of two edges, of those that are below a limit.
fn greater(
    limit: Option<usize>,
    found: Option<(u8, CursorPlace)>,
    byte: u8,
    after: CursorPlace,
) -> Option<(u8, CursorPlace)> {
    if !is_under(limit, byte) {
        return found;
    }
    match found {
        Some((greatest, _after)) if byte <= greatest => found,
        _ => Some((byte, after)),
    }
}

/// Returns the greatest edge that is below a limit, and the place after it.
fn greatest_under<K: ZeroTrieWithOptions>(
    bytes: &[u8],
    place: CursorPlace,
    limit: Option<usize>,
) -> Option<(u8, CursorPlace)> {
    let mut first = place;
    let edge = first.probe::<K>(bytes, 0)?;
    let mut found = greater(limit, None, edge.byte, first);
    for index in 1..edge.total_siblings as usize {
        let mut after = place;
        let Some(edge) = after.probe::<K>(bytes, index) else {
            return found;
        };
        found = greater(limit, found, edge.byte, after);
    }
    found
}

/// Calls `greatest_under` for the kind that the options name.
pub(in crate::made::zerotrie_search) fn edge_under(
    options: ZeroTrieBuilderOptions,
    bytes: &[u8],
    place: CursorPlace,
    limit: Option<usize>,
) -> Option<(u8, CursorPlace)> {
    by_kind!(options.kind(), greatest_under::<_>(bytes, place, limit))
}

/// Returns the place after an edge of just this byte.
fn exact<K: ZeroTrieWithOptions>(bytes: &[u8], place: CursorPlace, byte: u8) -> Option<CursorPlace> {
    steps_answer_stored_bytes();
    let mut after = place;
    let Some(edge) = after.step::<K>(bytes, byte) else {
        return None;
    };
    if edge == byte { Some(after) } else { None }
}

/// Calls `exact` for the kind that the options name.
pub(in crate::made::zerotrie_search) fn step_exact(
    options: ZeroTrieBuilderOptions,
    bytes: &[u8],
    place: CursorPlace,
    byte: u8,
) -> Option<CursorPlace> {
    by_kind!(options.kind(), exact::<_>(bytes, place, byte))
}
