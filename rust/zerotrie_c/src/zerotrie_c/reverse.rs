// Made from crates/zerotrie_c/src/reverse.rt by rust/make: edit that.
//! Reverse look-ups: the first key that has a value, by a table of places.

use crate::rstd::prelude::*;
use crate::zerotrie_c::found::hand_out_key;
use crate::zerotrie_c::numbers::{BUFFER_TOO_SMALL, DONE, OUT_OF_MEMORY, UNKNOWN_KIND, trie_of};
use crate::rstd::alloc::{AllocError, Global};
use crate::zerotrie_core::{Trie, TrieRef, by_kind};
use crate::zerotrie_reverse::{Reverse, first_key_by_places};

/// Copies places into the room if there is room, and sets `count` to their number.
fn hand_out_places(places: &[u32], room: &mut [u32], count: &mut usize) -> u32 {
    *count = places.len();
    if room.len() < places.len() {
        return BUFFER_TOO_SMALL;
    }
    let (front, _) = room.split_at_mut(places.len());
    front.copy_from_slice(places);
    DONE
}

/// Makes the table by which `zerotrie_reverse_key` finds the first key of a value: writes the places
/// of the values to the beginning of `places` if there is room, and sets `count` to their number.
///
/// There is a place for each pair, or there is none, if the bytes are malformed or have 4 GiB or
/// more. It lists all pairs, descends to the place of each, and sorts the places.
pub fn zerotrie_reverse_places(
    alloc: Global,
    kind: u32,
    bytes: &[u8],
    places: &mut [u32],
    count: &mut usize,
) -> u32 {
    let Some(trie) = trie_of(kind, bytes) else {
        return UNKNOWN_KIND;
    };
    match trie.keys_by_value(alloc) {
        Ok(table) => match table.places() {
            Some(made) => hand_out_places(made, places, count),
            None => hand_out_places(&[], places, count),
        },
        Err(_) => OUT_OF_MEMORY,
    }
}

/// Returns the first key that has a value: by a table, or by the pairs if it has no places.
fn key_by_places(
    alloc: Global,
    trie: &TrieRef<'_>,
    places: &[u32],
    value: usize,
) -> Result<Option<Vec<u8>>, AllocError> {
    if !places.is_empty() {
        return by_kind!(
            trie.kind,
            first_key_by_places::<_>(alloc, trie.bytes, places, value)
        );
    }
    match trie.first_key_of(alloc, value) {
        Ok(key) => Ok(key),
        Err(_) => Err(AllocError),
    }
}

/// Like `zerotrie_first_key_of`, by the places that `zerotrie_reverse_places` wrote for these bytes:
/// it searches among them by halves, and descends to the place that it finds. Without places it
/// reads the pairs.
///
/// Other places do no harm: the key that is found is then unspecified.
pub fn zerotrie_reverse_key(
    alloc: Global,
    kind: u32,
    bytes: &[u8],
    places: &[u32],
    value: usize,
    out: &mut [u8],
    key_len: &mut usize,
) -> u32 {
    let Some(trie) = trie_of(kind, bytes) else {
        return UNKNOWN_KIND;
    };
    match key_by_places(alloc, &trie, places, value) {
        Ok(found) => hand_out_key(found, out, key_len),
        Err(_) => OUT_OF_MEMORY,
    }
}

/// The functions as C calls them: a slice is a pointer and a number of items.
#[allow(unsafe_code)]
mod exports {
    use super::*;

    #[unsafe(no_mangle)]
    unsafe extern "C" fn zerotrie_reverse_places(
        kind: u32,
        bytes: *const u8,
        bytes_len: usize,
        places: *mut u32,
        places_len: usize,
        count: *mut usize,
    ) -> u32 {
        // SAFETY: a caller keeps to what zerotrie.h says.
        unsafe {
            super::zerotrie_reverse_places(
                Global,
                kind,
                crate::slice(bytes, bytes_len),
                crate::slice_mut(places, places_len),
                &mut *count,
            )
        }
    }

    #[unsafe(no_mangle)]
    unsafe extern "C" fn zerotrie_reverse_key(
        kind: u32,
        bytes: *const u8,
        bytes_len: usize,
        places: *const u32,
        places_len: usize,
        value: usize,
        out: *mut u8,
        out_len: usize,
        key_len: *mut usize,
    ) -> u32 {
        // SAFETY: a caller keeps to what zerotrie.h says.
        unsafe {
            super::zerotrie_reverse_key(
                Global,
                kind,
                crate::slice(bytes, bytes_len),
                crate::slice(places, places_len),
                value,
                crate::slice_mut(out, out_len),
                &mut *key_len,
            )
        }
    }
}
