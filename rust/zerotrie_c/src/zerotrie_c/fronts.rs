// Made from crates/zerotrie_c/src/fronts.rt by rust/make: edit that.
//! The keys that a text begins with.

use crate::zerotrie_c::answers::tell_both;
use crate::zerotrie_c::numbers::trie_of;
use crate::zerotrie_core::Trie;

/// Writes a number at a place of the room, if the room has it.
fn put_at(room: &mut [usize], place: usize, number: usize) {
    if place < room.len() {
        room[place] = number;
    }
}

/// Returns how many keys the text begins with. Writes their lengths to `lens` and their values to
/// `values`, the shortest key first, as far as each of them has room. The rest of the room stays.
///
/// A number that no kind has is no error: no key is found.
pub fn zerotrie_common_prefixes(
    kind: u32,
    bytes: &[u8],
    text: &[u8],
    lens: &mut [usize],
    values: &mut [usize],
) -> usize {
    let Some(trie) = trie_of(kind, bytes) else {
        return 0;
    };
    let mut count = 0;
    for (len, value) in trie.common_prefixes(text) {
        put_at(lens, count, len);
        put_at(values, count, value);
        count += 1;
    }
    count
}

/// Returns whether the text begins with a key after which it ends or continues with one of the
/// delimiters, and then sets `prefix_len` and `value` to the length and the value of the longest
/// one. The empty key counts whatever follows.
pub fn zerotrie_longest_prefix_at(
    kind: u32,
    bytes: &[u8],
    text: &[u8],
    delimiters: &[u8],
    prefix_len: &mut usize,
    value: &mut usize,
) -> bool {
    match trie_of(kind, bytes) {
        Some(trie) => tell_both(trie.longest_prefix_at(text, delimiters), prefix_len, value),
        None => false,
    }
}

/// The functions as C calls them: a slice is a pointer and a number of items.
#[allow(unsafe_code)]
mod exports {
    use super::*;

    #[unsafe(no_mangle)]
    unsafe extern "C" fn zerotrie_common_prefixes(
        kind: u32,
        bytes: *const u8,
        bytes_len: usize,
        text: *const u8,
        text_len: usize,
        lens: *mut usize,
        lens_len: usize,
        values: *mut usize,
        values_len: usize,
    ) -> usize {
        // SAFETY: a caller keeps to what zerotrie.h says.
        unsafe {
            super::zerotrie_common_prefixes(
                kind,
                crate::slice(bytes, bytes_len),
                crate::slice(text, text_len),
                crate::slice_mut(lens, lens_len),
                crate::slice_mut(values, values_len),
            )
        }
    }

    #[unsafe(no_mangle)]
    unsafe extern "C" fn zerotrie_longest_prefix_at(
        kind: u32,
        bytes: *const u8,
        bytes_len: usize,
        text: *const u8,
        text_len: usize,
        delimiters: *const u8,
        delimiters_len: usize,
        prefix_len: *mut usize,
        value: *mut usize,
    ) -> bool {
        // SAFETY: a caller keeps to what zerotrie.h says.
        unsafe {
            super::zerotrie_longest_prefix_at(
                kind,
                crate::slice(bytes, bytes_len),
                crate::slice(text, text_len),
                crate::slice(delimiters, delimiters_len),
                &mut *prefix_len,
                &mut *value,
            )
        }
    }
}
