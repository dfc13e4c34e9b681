// Made from crates/zerotrie_search/src/sorted/back.rt by rust/make: edit that.
//! The way back along a path to the last pair up to a bound.

use crate::rstd::prelude::*;
use crate::zerotrie_search::sorted::edges::edge_under;
use crate::zerotrie_search::sorted::path::follow;
use crate::rstd::alloc::{AllocError, Allocator};
use crate::rstd::cmp::Ordering;
use crate::rstd::ops::Bound;
use crate::zerotrie_core::{CursorPlace, ZeroTrieBuilderOptions};

/// Where a way back along a path ends.
#[derive(Clone, Copy, Debug)]
enum Turn {
    /// All keys come later.
    Nowhere,
    /// At the value of the last key that does not come later.
    Value(usize),
    /// At an edge that leads to that key, with the place after it.
    Edge(u8, CursorPlace),
}

/// Goes back along a path to the deepest place that has an edge below a limit, at first this one and
/// then the byte that was left, or that has a value.
fn climb_back<A: Allocator>(
    options: ZeroTrieBuilderOptions,
    bytes: &[u8],
    key: &mut Vec<u8, A>,
    places: &mut Vec<CursorPlace, A>,
    here: CursorPlace,
    limit: Option<usize>,
) -> Turn {
    let mut at = here;
    let mut limit = limit;
    loop {
        if let Some((byte, below)) = edge_under(options, bytes, at, limit) {
            return Turn::Edge(byte, below);
        }
        let mut after = at;
        if let Some(value) = after.take_value(bytes) {
            return Turn::Value(value);
        }
        let Some(place) = places.pop() else {
            return Turn::Nowhere;
        };
        let Some(byte) = key.pop() else {
            return Turn::Nowhere;
        };
        at = place;
        limit = Some(byte as usize);
    }
}

/// Goes down by greatest edges to the last value, and returns it. On malformed bytes there may be
/// none.
fn descend_last<A: Allocator>(
    options: ZeroTrieBuilderOptions,
    bytes: &[u8],
    key: &mut Vec<u8, A>,
    here: CursorPlace,
) -> Result<Option<usize>, AllocError> {
    let mut at = here;
    while key.len() <= bytes.len() {
        let Some((byte, below)) = edge_under(options, bytes, at, None) else {
            return Ok(at.take_value(bytes));
        };
        key.push(byte)?;
        at = below;
    }
    Ok(None)
}

/// Moves a path back to the last pair that does not come after its key and the edges below a limit.
/// Returns its value, or `None` if there is no such pair.
fn move_back<A: Allocator>(
    options: ZeroTrieBuilderOptions,
    bytes: &[u8],
    key: &mut Vec<u8, A>,
    places: &mut Vec<CursorPlace, A>,
    here: CursorPlace,
    limit: Option<usize>,
) -> Result<Option<usize>, AllocError> {
    match climb_back(options, bytes, key, places, here, limit) {
        Turn::Nowhere => Ok(None),
        Turn::Value(value) => Ok(Some(value)),
        Turn::Edge(byte, below) => {
            key.push(byte)?;
            let found = descend_last(options, bytes, key, below)?;
            Ok(found)
        }
    }
}

/// Returns a key and a limit of its edges, after which no key is within an upper bound; `None` if no
/// key is within it.
fn end_of<'p>(to: Bound<&'p [u8]>) -> Option<(&'p [u8], Option<usize>)> {
    match to {
        Bound::Unbounded => Some((&[], None)),
        Bound::Included(key) => Some((key, Some(0))),
        Bound::Excluded(key) => {
            let Some((last, front)) = key.split_last() else {
                return None;
            };
            Some((front, Some(*last as usize)))
        }
    }
}

/// Returns whether a key is within a lower bound.
fn is_down_to(from: Bound<&[u8]>, key: &[u8]) -> bool {
    match from {
        Bound::Unbounded => true,
        Bound::Included(bound) => bound.cmp(key) != Ordering::Greater,
        Bound::Excluded(bound) => bound.cmp(key) == Ordering::Less,
    }
}

/// Returns the last pair between two bounds, or `None` if there is none.
pub(in crate::made::zerotrie_search) fn last_between<A: Allocator + Copy>(
    alloc: A,
    options: ZeroTrieBuilderOptions,
    bytes: &[u8],
    from: Bound<&[u8]>,
    to: Bound<&[u8]>,
) -> Result<Option<(Vec<u8, A>, usize)>, AllocError> {
    let Some((sought, limit)) = end_of(to) else {
        return Ok(None);
    };
    let mut key = Vec::new(alloc);
    let mut places = Vec::new(alloc);
    let mut here = CursorPlace::new(bytes);
    let next = follow(options, bytes, sought, &mut key, &mut places, &mut here)?;
    let found = move_back(options, bytes, &mut key, &mut places, here, next.or(limit))?;
    let Some(value) = found else {
        return Ok(None);
    };
    if is_down_to(from, key.as_slice()) {
        Ok(Some((key, value)))
    } else {
        Ok(None)
    }
}
