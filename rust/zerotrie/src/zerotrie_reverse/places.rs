// Made from crates/zerotrie_reverse/src/places.rt by rust/make: edit that.
//! The places of the values of a trie.

use crate::rstd::prelude::*;
use crate::zerotrie_reverse::descent::{read_key_at, value_at};
use crate::rstd::alloc::{AllocError, Global};
use crate::zerotrie_core::{CursorPlace, ZeroTrieStream, ZeroTrieWithOptions, count_pairs};

/// Returns where the value of a key is. If the trie has no such key, the result is unspecified.
#[inline]
fn place_of<K: ZeroTrieWithOptions>(bytes: &[u8], key: &[u8]) -> usize {
    let mut place = CursorPlace::new(bytes);
    for byte in key {
        place.step::<K>(bytes, *byte);
    }
    place.trie
}

/// Returns whether a descent to a place reads this pair. Writes the key that it reads.
#[inline]
fn has_pair<K: ZeroTrieWithOptions>(
    bytes: &[u8],
    place: u32,
    key: &[u8],
    value: usize,
    read: &mut Vec<u8>,
) -> Result<bool, AllocError> {
    read_key_at::<K, Global>(bytes, place as usize, read)?;
    Ok(read.as_slice() == key && value_at(bytes, place as usize) == value)
}

/// Returns the place of the value of each pair, in the order of the pairs. Returns `None` if a
/// descent to a place reads another pair than the one whose value is there, or if a place is 2^32 or
/// more.
#[inline]
pub(in crate::made::zerotrie_reverse) fn places_of<K: ZeroTrieWithOptions>(
    alloc: Global,
    bytes: &[u8],
) -> Result<Option<Vec<u32>>, AllocError> {
    let mut places = Vec::with_capacity(alloc, count_pairs::<K>(bytes))?;
    let mut key = Vec::new(alloc);
    let mut pairs = ZeroTrieStream::new::<K>(alloc, bytes);
    while pairs.advance()? {
        let Ok(place) = u32::try_from(place_of::<K>(bytes, pairs.key())) else {
            return Ok(None);
        };
        if !has_pair::<K>(bytes, place, pairs.key(), pairs.value(), &mut key)? {
            return Ok(None);
        }
        places.push(place)?;
    }
    Ok(Some(places))
}

/// Puts places into the order of their values. Places of one value keep their order.
#[inline]
pub(in crate::made::zerotrie_reverse) fn sort_by_value(bytes: &[u8], places: &mut Vec<u32>) -> Result<(), AllocError> {
    places.sort_by_key(|place| value_at(bytes, *place as usize));
    Ok(())
}

/// Returns the places of the values of a trie in the order of the values. Returns `None` as
/// `places_of` does.
#[inline]
pub(in crate::made::zerotrie_reverse) fn sorted_places<K: ZeroTrieWithOptions>(
    alloc: Global,
    bytes: &[u8],
) -> Result<Option<Vec<u32>>, AllocError> {
    let Some(mut places) = places_of::<K>(alloc, bytes)? else {
        return Ok(None);
    };
    sort_by_value(bytes, &mut places)?;
    Ok(Some(places))
}

/// Returns how many places have lower values, of places in the order of their values. Of other
/// places the result is unspecified.
#[inline]
fn first_from(bytes: &[u8], places: &[u32], value: usize) -> usize {
    places.partition_point(|place| value_at(bytes, *place as usize) < value)
}

/// Returns the first place that has this value, of places in the order of their values. Of other
/// places the result is unspecified.
#[inline]
pub(in crate::made::zerotrie_reverse) fn first_place_of(bytes: &[u8], places: &[u32], value: usize) -> Option<u32> {
    let place = places.get(first_from(bytes, places, value))?;
    if value_at(bytes, *place as usize) == value {
        Some(*place)
    } else {
        None
    }
}
