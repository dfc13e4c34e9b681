// Made from crates/zerotrie_c/src/found.rt by rust/make: edit that.
//! One key that is found: the last one of a range, or the first one that has a value.

use crate::rstd::prelude::*;
use crate::zerotrie_c::builds::hand_out;
use crate::zerotrie_c::numbers::{NO_ENTRY, OUT_OF_MEMORY, UNKNOWN_KIND, UNKNOWN_SEARCH, trie_of};
use crate::zerotrie_c::sorted::bounds_with;
use crate::rstd::alloc::Global;
use crate::zerotrie_core::Trie;
use crate::zerotrie_search::Search;

/// Copies a key into the room if there is room, and sets its length. Returns `NO_ENTRY` for none.
pub fn hand_out_key(found: Option<Vec<u8>>, room: &mut [u8], key_len: &mut usize) -> u32 {
    match found {
        Some(key) => hand_out(key.as_slice(), room, key_len),
        None => NO_ENTRY,
    }
}

/// Like `hand_out_key`, and sets the value too.
fn hand_out_pair(
    found: Option<(Vec<u8>, usize)>,
    room: &mut [u8],
    key_len: &mut usize,
    value: &mut usize,
) -> u32 {
    match found {
        Some((key, found)) => {
            *value = found;
            hand_out(key.as_slice(), room, key_len)
        }
        None => NO_ENTRY,
    }
}

/// Finds the last key between two bounds in the order of bytes, in every kind. Writes it to the
/// beginning of `out` if there is room, and sets `key_len` and `value`.
///
/// The status is `NO_ENTRY` if no key is there. If a key is found, its length and its value are set
/// even if the room is too small for it. It compares the edges at one place for each byte that it
/// goes back or down, and reads no other key.
pub fn zerotrie_last_within(
    alloc: Global,
    kind: u32,
    bytes: &[u8],
    from_bound: u32,
    from: &[u8],
    to_bound: u32,
    to: &[u8],
    out: &mut [u8],
    key_len: &mut usize,
    value: &mut usize,
) -> u32 {
    let Some(trie) = trie_of(kind, bytes) else {
        return UNKNOWN_KIND;
    };
    let Some((from, to)) = bounds_with(from_bound, from, to_bound, to) else {
        return UNKNOWN_SEARCH;
    };
    match trie.last_within(alloc, from, to) {
        Ok(found) => hand_out_pair(found, out, key_len, value),
        Err(_) => OUT_OF_MEMORY,
    }
}

/// Finds the first key, in the order of a listing, that has this value. Writes it to the beginning
/// of `out` if there is room, and sets `key_len`.
///
/// The status is `NO_ENTRY` if no key has the value. It reads the pairs up to that key.
pub fn zerotrie_first_key_of(
    alloc: Global,
    kind: u32,
    bytes: &[u8],
    value: usize,
    out: &mut [u8],
    key_len: &mut usize,
) -> u32 {
    let Some(trie) = trie_of(kind, bytes) else {
        return UNKNOWN_KIND;
    };
    match trie.first_key_of(alloc, value) {
        Ok(found) => hand_out_key(found, out, key_len),
        Err(_) => OUT_OF_MEMORY,
    }
}

/// The functions as C calls them: a slice is a pointer and a number of items.
#[allow(unsafe_code)]
mod exports {
    use super::*;

    #[unsafe(no_mangle)]
    unsafe extern "C" fn zerotrie_last_within(
        kind: u32,
        bytes: *const u8,
        bytes_len: usize,
        from_bound: u32,
        from: *const u8,
        from_len: usize,
        to_bound: u32,
        to: *const u8,
        to_len: usize,
        out: *mut u8,
        out_len: usize,
        key_len: *mut usize,
        value: *mut usize,
    ) -> u32 {
        // SAFETY: a caller keeps to what zerotrie.h says.
        unsafe {
            super::zerotrie_last_within(
                Global,
                kind,
                crate::slice(bytes, bytes_len),
                from_bound,
                crate::slice(from, from_len),
                to_bound,
                crate::slice(to, to_len),
                crate::slice_mut(out, out_len),
                &mut *key_len,
                &mut *value,
            )
        }
    }

    #[unsafe(no_mangle)]
    unsafe extern "C" fn zerotrie_first_key_of(
        kind: u32,
        bytes: *const u8,
        bytes_len: usize,
        value: usize,
        out: *mut u8,
        out_len: usize,
        key_len: *mut usize,
    ) -> u32 {
        // SAFETY: a caller keeps to what zerotrie.h says.
        unsafe {
            super::zerotrie_first_key_of(
                Global,
                kind,
                crate::slice(bytes, bytes_len),
                value,
                crate::slice_mut(out, out_len),
                &mut *key_len,
            )
        }
    }
}
