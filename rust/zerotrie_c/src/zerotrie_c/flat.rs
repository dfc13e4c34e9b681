// Made from crates/zerotrie_c/src/flat.rt by rust/make: edit that.
//! Builds of keys that are one after another.

use crate::rstd::prelude::*;
use crate::zerotrie_c::builds::{bytes_of, hand_out_trie};
use crate::zerotrie_c::many::key_between;
use crate::zerotrie_c::numbers::{OUT_OF_MEMORY, UNKNOWN_KIND, kind_of};
use crate::rstd::alloc::{AllocError, Global};

/// Returns the pairs as items. The keys are borrowed.
pub fn items_between<'k>(
    alloc: Global,
    keys: &'k [u8],
    ends: &[usize],
    values: &[usize],
) -> Result<Vec<(&'k [u8], usize)>, AllocError> {
    let count = ends.len().min(values.len());
    let mut items = Vec::with_capacity(alloc, count)?;
    let mut from = 0;
    for number in 0..count {
        let to = ends[number];
        items.push((key_between(keys, from, to), values[number]))?;
        from = to;
    }
    Ok(items)
}

/// Like `zerotrie_build`, of keys that are one after another, each up to its end.
///
/// An end past all bytes counts as their end, and an end below the one before it makes an empty
/// key. There are as many pairs as the shorter of `ends` and `values` has.
pub fn zerotrie_build_many(
    alloc: Global,
    kind: u32,
    keys: &[u8],
    ends: &[usize],
    values: &[usize],
    out: &mut [u8],
    len: &mut usize,
) -> u32 {
    let Some(kind) = kind_of(kind) else {
        return UNKNOWN_KIND;
    };
    match items_between(alloc, keys, ends, values) {
        Ok(items) => hand_out_trie(bytes_of(alloc, kind, items.as_slice()), out, len),
        Err(_) => OUT_OF_MEMORY,
    }
}

/// The functions as C calls them: a slice is a pointer and a number of items.
#[allow(unsafe_code)]
mod exports {
    use super::*;

    #[unsafe(no_mangle)]
    unsafe extern "C" fn zerotrie_build_many(
        kind: u32,
        keys: *const u8,
        keys_len: usize,
        ends: *const usize,
        ends_len: usize,
        values: *const usize,
        values_len: usize,
        out: *mut u8,
        out_len: usize,
        len: *mut usize,
    ) -> u32 {
        // SAFETY: a caller keeps to what zerotrie.h says.
        unsafe {
            super::zerotrie_build_many(
                Global,
                kind,
                crate::slice(keys, keys_len),
                crate::slice(ends, ends_len),
                crate::slice(values, values_len),
                crate::slice_mut(out, out_len),
                &mut *len,
            )
        }
    }
}
