// Made from crates/zerotrie_c/src/tags.rt by rust/make: edit that.
//! Tagged bytes, which begin with the number of a kind, and the validation of bytes.

use crate::zerotrie_c::numbers::{BUFFER_TOO_SMALL, DONE, INVALID_TAG, NO_TAG, UNKNOWN_KIND, is_kind, trie_of};
use crate::zerotrie_core::Trie;

/// Returns whether the bytes are a valid trie of the kind: exactly if they mean a map. Not for a
/// number that no kind has.
pub fn zerotrie_is_well_formed(kind: u32, bytes: &[u8]) -> bool {
    match trie_of(kind, bytes) {
        Some(trie) => trie.is_well_formed(),
        None => false,
    }
}

/// Copies bytes and others after them to the beginning of the room, which has enough.
pub fn put_both(front: &[u8], behind: &[u8], out: &mut [u8]) {
    let (first, rest) = out.split_at_mut(front.len());
    first.copy_from_slice(front);
    let (second, _) = rest.split_at_mut(behind.len());
    second.copy_from_slice(behind);
}

/// Writes the number of the kind and the bytes to the beginning of `out`, if there is room, and
/// sets `len`.
pub fn zerotrie_tagged(kind: u32, bytes: &[u8], out: &mut [u8], len: &mut usize) -> u32 {
    if !is_kind(kind) {
        return UNKNOWN_KIND;
    }
    *len = bytes.len() + 1;
    if out.len() <= bytes.len() {
        return BUFFER_TOO_SMALL;
    }
    put_both(&[kind as u8], bytes, out);
    DONE
}

/// Sets `kind` to the kind of tagged bytes, whose trie is what follows their first byte. It does
/// not validate the trie.
pub fn zerotrie_tagged_kind(tagged: &[u8], kind: &mut u32) -> u32 {
    match tagged {
        [] => NO_TAG,
        [first, ..] => {
            if !is_kind(*first as u32) {
                return INVALID_TAG;
            }
            *kind = *first as u32;
            DONE
        }
    }
}

/// The functions as C calls them: a slice is a pointer and a number of items.
#[allow(unsafe_code)]
mod exports {
    use super::*;

    #[unsafe(no_mangle)]
    unsafe extern "C" fn zerotrie_is_well_formed(
        kind: u32,
        bytes: *const u8,
        bytes_len: usize,
    ) -> bool {
        // SAFETY: a caller keeps to what zerotrie.h says.
        unsafe {
            super::zerotrie_is_well_formed(kind, crate::slice(bytes, bytes_len))
        }
    }

    #[unsafe(no_mangle)]
    unsafe extern "C" fn zerotrie_tagged(
        kind: u32,
        bytes: *const u8,
        bytes_len: usize,
        out: *mut u8,
        out_len: usize,
        len: *mut usize,
    ) -> u32 {
        // SAFETY: a caller keeps to what zerotrie.h says.
        unsafe {
            super::zerotrie_tagged(
                kind,
                crate::slice(bytes, bytes_len),
                crate::slice_mut(out, out_len),
                &mut *len,
            )
        }
    }

    #[unsafe(no_mangle)]
    unsafe extern "C" fn zerotrie_tagged_kind(
        tagged: *const u8,
        tagged_len: usize,
        kind: *mut u32,
    ) -> u32 {
        // SAFETY: a caller keeps to what zerotrie.h says.
        unsafe {
            super::zerotrie_tagged_kind(crate::slice(tagged, tagged_len), &mut *kind)
        }
    }
}
