// Made from crates/zerotrie_c/src/indexes.rt by rust/make: edit that.
//! Indexes.

use crate::rstd::prelude::*;
use crate::zerotrie_c::answers::tell;
use crate::zerotrie_c::builds::{Pair, hand_out, items_of};
use crate::zerotrie_c::flat::items_between;
use crate::zerotrie_c::many::{Finder, look_up_all};
use crate::zerotrie_c::numbers::{CROWDED, DONE, OUT_OF_MEMORY, status_of};
use crate::rstd::alloc::Global;
use crate::zerotrie_core::ZeroTrieBuildError;
use crate::zerotrie_index::{OpenedIndex, ZeroIndex, ZeroIndexBuildError, build, is_well_formed};

/// Returns whether the index has the key, and then sets `value` to its value.
pub fn zerotrie_index_get(bytes: &[u8], key: &[u8], value: &mut usize) -> bool {
    tell(ZeroIndex::from_bytes(bytes).get(key), value)
}

impl<'a> Finder for OpenedIndex<'a> {
    fn find(&mut self, key: &[u8]) -> Option<usize> {
        self.get(key)
    }
}

/// Looks up keys and writes the value of each, or `missing` for a key that the index does not have.
/// The keys are one after another, each up to its end, as in `zerotrie_get_many`.
pub fn zerotrie_index_get_many(
    bytes: &[u8],
    keys: &[u8],
    ends: &[usize],
    missing: usize,
    values: &mut [usize],
) -> u32 {
    let mut index = OpenedIndex::new(bytes);
    look_up_all(&mut index, keys, ends, missing, values);
    DONE
}

/// Returns whether the bytes are a valid index: exactly if they are one of some pairs.
pub fn zerotrie_index_is_valid(bytes: &[u8]) -> bool {
    is_well_formed(bytes)
}

/// Returns the status of an error of a build.
fn index_status_of(error: ZeroIndexBuildError) -> u32 {
    match error {
        ZeroIndexBuildError::Unsorted => status_of(ZeroTrieBuildError::Unsorted),
        ZeroIndexBuildError::DuplicateKey => status_of(ZeroTrieBuildError::DuplicateKey),
        ZeroIndexBuildError::Crowded => CROWDED,
        ZeroIndexBuildError::CapacityExceeded => status_of(ZeroTrieBuildError::CapacityExceeded),
        ZeroIndexBuildError::OutOfMemory => OUT_OF_MEMORY,
    }
}

/// Copies the bytes of a build into `out` if there is room, or returns the status of its error.
fn hand_out_index(
    built: Result<Vec<u8>, ZeroIndexBuildError>,
    out: &mut [u8],
    len: &mut usize,
) -> u32 {
    match built {
        Ok(bytes) => hand_out(bytes.as_slice(), out, len),
        Err(error) => index_status_of(error),
    }
}

/// Builds the index of pairs in any order into `out`, if there is room, and sets `len`. It tries
/// some seeds, from this one on.
pub fn zerotrie_index_build(
    alloc: Global,
    seed: u64,
    pairs: &[Pair<'_>],
    out: &mut [u8],
    len: &mut usize,
) -> u32 {
    match items_of(alloc, pairs) {
        Ok(items) => hand_out_index(build(alloc, seed, items.as_slice()), out, len),
        Err(_) => OUT_OF_MEMORY,
    }
}

/// Like `zerotrie_index_build`, of keys that are one after another, each up to its end, as in
/// `zerotrie_build_many`.
pub fn zerotrie_index_build_many(
    alloc: Global,
    seed: u64,
    keys: &[u8],
    ends: &[usize],
    values: &[usize],
    out: &mut [u8],
    len: &mut usize,
) -> u32 {
    match items_between(alloc, keys, ends, values) {
        Ok(items) => hand_out_index(build(alloc, seed, items.as_slice()), out, len),
        Err(_) => OUT_OF_MEMORY,
    }
}

/// The functions as C calls them: a slice is a pointer and a number of items.
#[allow(unsafe_code)]
mod exports {
    use super::*;

    #[unsafe(no_mangle)]
    unsafe extern "C" fn zerotrie_index_get(
        bytes: *const u8,
        bytes_len: usize,
        key: *const u8,
        key_len: usize,
        value: *mut usize,
    ) -> bool {
        // SAFETY: a caller keeps to what zerotrie.h says.
        unsafe {
            super::zerotrie_index_get(
                crate::slice(bytes, bytes_len),
                crate::slice(key, key_len),
                &mut *value,
            )
        }
    }

    #[unsafe(no_mangle)]
    unsafe extern "C" fn zerotrie_index_get_many(
        bytes: *const u8,
        bytes_len: usize,
        keys: *const u8,
        keys_len: usize,
        ends: *const usize,
        ends_len: usize,
        missing: usize,
        values: *mut usize,
        values_len: usize,
    ) -> u32 {
        // SAFETY: a caller keeps to what zerotrie.h says.
        unsafe {
            super::zerotrie_index_get_many(
                crate::slice(bytes, bytes_len),
                crate::slice(keys, keys_len),
                crate::slice(ends, ends_len),
                missing,
                crate::slice_mut(values, values_len),
            )
        }
    }

    #[unsafe(no_mangle)]
    unsafe extern "C" fn zerotrie_index_is_valid(bytes: *const u8, bytes_len: usize) -> bool {
        // SAFETY: a caller keeps to what zerotrie.h says.
        unsafe {
            super::zerotrie_index_is_valid(crate::slice(bytes, bytes_len))
        }
    }

    #[unsafe(no_mangle)]
    unsafe extern "C" fn zerotrie_index_build(
        seed: u64,
        pairs: *const Pair<'_>,
        pairs_len: usize,
        out: *mut u8,
        out_len: usize,
        len: *mut usize,
    ) -> u32 {
        // SAFETY: a caller keeps to what zerotrie.h says.
        unsafe {
            super::zerotrie_index_build(
                Global,
                seed,
                crate::slice(pairs, pairs_len),
                crate::slice_mut(out, out_len),
                &mut *len,
            )
        }
    }

    #[unsafe(no_mangle)]
    unsafe extern "C" fn zerotrie_index_build_many(
        seed: u64,
        keys: *const u8,
        keys_len: usize,
        ends: *const usize,
        ends_len: usize,
        values: *const usize,
        values_len: usize,
        out: *mut u8,
        out_len: usize,
        len: *mut usize,
    ) -> u32 {
        // SAFETY: a caller keeps to what zerotrie.h says.
        unsafe {
            super::zerotrie_index_build_many(
                Global,
                seed,
                crate::slice(keys, keys_len),
                crate::slice(ends, ends_len),
                crate::slice(values, values_len),
                crate::slice_mut(out, out_len),
                &mut *len,
            )
        }
    }
}
