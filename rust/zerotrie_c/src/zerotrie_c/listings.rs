// Made from crates/zerotrie_c/src/listings.rt by rust/make: edit that.
//! Whole listings.

use crate::rstd::prelude::*;
use crate::zerotrie_c::numbers::{BUFFER_TOO_SMALL, DONE, OUT_OF_MEMORY, UNKNOWN_KIND, trie_of};
use crate::rstd::alloc::{AllocError, Global};
use crate::zerotrie_core::{ListError, Trie, ZeroTrieStream};

/// Keys one after another, where each ends, and their values.
pub struct Flat {
    pub keys: Vec<u8>,
    pub ends: Vec<usize>,
    pub values: Vec<usize>,
}

impl Flat {
    /// Returns no keys.
    pub fn new(alloc: Global) -> Self {
        Flat {
            keys: Vec::new(alloc),
            ends: Vec::new(alloc),
            values: Vec::new(alloc),
        }
    }

    /// Adds a key and its value.
    pub fn push(&mut self, key: &[u8], value: usize) -> Result<(), AllocError> {
        self.keys.extend_from_slice(key)?;
        self.ends.push(self.keys.len())?;
        self.values.push(value)?;
        Ok(())
    }
}

/// Returns the pairs of a stream.
fn flat_of(alloc: Global, mut pairs: ZeroTrieStream<'_>) -> Result<Flat, ListError> {
    let mut listed = Flat::new(alloc);
    while pairs.advance()? {
        listed.push(pairs.key(), pairs.value())?;
    }
    Ok(listed)
}

/// Copies items to the beginning of the room, if there is enough.
fn put<T: Copy>(items: &[T], room: &mut [T]) -> bool {
    if room.len() < items.len() {
        return false;
    }
    let (front, _) = room.split_at_mut(items.len());
    front.copy_from_slice(items);
    true
}

/// Returns the status of three copies.
fn status_of_rooms(keys: bool, ends: bool, values: bool) -> u32 {
    if keys && ends && values {
        DONE
    } else {
        BUFFER_TOO_SMALL
    }
}

/// Copies the pairs out, and sets their lengths.
fn give(
    listed: &Flat,
    keys: &mut [u8],
    ends: &mut [usize],
    values: &mut [usize],
    key_bytes: &mut usize,
    count: &mut usize,
) -> u32 {
    *key_bytes = listed.keys.len();
    *count = listed.values.len();
    let whole_keys = put(listed.keys.as_slice(), keys);
    let whole_ends = put(listed.ends.as_slice(), ends);
    let whole_values = put(listed.values.as_slice(), values);
    status_of_rooms(whole_keys, whole_ends, whole_values)
}

/// Writes the pairs of a trie whose keys begin with a prefix, with the empty prefix all pairs: the
/// keys one after another, where each ends, and the values.
///
/// It sets `key_bytes` and `count` even if some room is too small. A room that is too small stays
/// as it is. If no kind has the number, or an allocation fails, nothing is written.
///
/// On malformed bytes it does the same for some pairs, at most as many as there are bytes.
pub fn zerotrie_list(
    alloc: Global,
    kind: u32,
    bytes: &[u8],
    prefix: &[u8],
    keys: &mut [u8],
    ends: &mut [usize],
    values: &mut [usize],
    key_bytes: &mut usize,
    count: &mut usize,
) -> u32 {
    let Some(trie) = trie_of(kind, bytes) else {
        return UNKNOWN_KIND;
    };
    let Ok(pairs) = trie.stream_prefix(alloc, prefix) else {
        return OUT_OF_MEMORY;
    };
    match flat_of(alloc, pairs) {
        Ok(listed) => give(&listed, keys, ends, values, key_bytes, count),
        Err(_) => OUT_OF_MEMORY,
    }
}

/// The functions as C calls them: a slice is a pointer and a number of items.
#[allow(unsafe_code)]
mod exports {
    use super::*;

    #[unsafe(no_mangle)]
    unsafe extern "C" fn zerotrie_list(
        kind: u32,
        bytes: *const u8,
        bytes_len: usize,
        prefix: *const u8,
        prefix_len: usize,
        keys: *mut u8,
        keys_len: usize,
        ends: *mut usize,
        ends_len: usize,
        values: *mut usize,
        values_len: usize,
        key_bytes: *mut usize,
        count: *mut usize,
    ) -> u32 {
        // SAFETY: a caller keeps to what zerotrie.h says.
        unsafe {
            super::zerotrie_list(
                Global,
                kind,
                crate::slice(bytes, bytes_len),
                crate::slice(prefix, prefix_len),
                crate::slice_mut(keys, keys_len),
                crate::slice_mut(ends, ends_len),
                crate::slice_mut(values, values_len),
                &mut *key_bytes,
                &mut *count,
            )
        }
    }
}
