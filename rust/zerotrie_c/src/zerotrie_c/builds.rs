// Made from crates/zerotrie_c/src/builds.rt by rust/make: edit that.
//! Builds.

use crate::rstd::prelude::*;
use crate::zerotrie_c::numbers::{BUFFER_TOO_SMALL, DONE, OUT_OF_MEMORY, UNKNOWN_KIND, kind_of, status_of};
use crate::rstd::alloc::{AllocError, Global};
use crate::zerotrie_any::{bytes_from_slice, bytes_from_unsorted_slice, kind_for_pairs};
use crate::zerotrie_base::TriePair;
use crate::zerotrie_build::{ByteSliceWithIndices, encoded_len};
use crate::zerotrie_core::{TrieKind, ZeroTrieBuildError, by_kind};

/// A pair of a key and a value, with C's layout.
#[repr(C)]
#[derive(Clone, Copy)]
pub struct Pair<'a> {
    pub key: crate::Slice<'a>,
    pub value: usize,
}

impl<'a> TriePair for Pair<'a> {
    fn pair_key(&self) -> &[u8] {
        self.key.get()
    }
}

/// Returns the pairs as items. The keys are borrowed.
pub fn items_of<'a>(alloc: Global, pairs: &[Pair<'a>]) -> Result<Vec<(&'a [u8], usize)>, AllocError> {
    let mut items = Vec::with_capacity(alloc, pairs.len())?;
    for pair in pairs {
        items.push((pair.key.get(), pair.value))?;
    }
    Ok(items)
}

/// Copies the bytes into `out` if there is room, and sets `len` to their number.
pub fn hand_out(bytes: &[u8], out: &mut [u8], len: &mut usize) -> u32 {
    *len = bytes.len();
    if out.len() < bytes.len() {
        return BUFFER_TOO_SMALL;
    }
    let (front, _) = out.split_at_mut(bytes.len());
    front.copy_from_slice(bytes);
    DONE
}

/// Returns the bytes of the trie of items whose keys ascend.
pub fn bytes_of_sorted(
    alloc: Global,
    kind: TrieKind,
    items: &[(&[u8], usize)],
) -> Result<Vec<u8>, ZeroTrieBuildError> {
    by_kind!(kind, bytes_from_slice::<_>(alloc, items))
}

/// Returns the bytes of the trie of items in any order.
pub fn bytes_of(
    alloc: Global,
    kind: TrieKind,
    items: &[(&[u8], usize)],
) -> Result<Vec<u8>, ZeroTrieBuildError> {
    by_kind!(kind, bytes_from_unsorted_slice::<_>(alloc, items))
}

/// Copies the bytes of a build into `out` if there is room, or returns the status of its error.
pub fn hand_out_trie(
    built: Result<Vec<u8>, ZeroTrieBuildError>,
    out: &mut [u8],
    len: &mut usize,
) -> u32 {
    match built {
        Ok(bytes) => hand_out(bytes.as_slice(), out, len),
        Err(error) => status_of(error),
    }
}

/// Builds the trie of pairs whose keys ascend strictly by their bytes. Writes it to the beginning
/// of `out` if there is room, and sets `len` to its length.
pub fn zerotrie_build_sorted(
    alloc: Global,
    kind: u32,
    pairs: &[Pair<'_>],
    out: &mut [u8],
    len: &mut usize,
) -> u32 {
    let Some(kind) = kind_of(kind) else {
        return UNKNOWN_KIND;
    };
    match items_of(alloc, pairs) {
        Ok(items) => hand_out_trie(bytes_of_sorted(alloc, kind, items.as_slice()), out, len),
        Err(_) => OUT_OF_MEMORY,
    }
}

/// Builds the trie of pairs in any order. Writes it to the beginning of `out` if there is room, and
/// sets `len` to its length.
pub fn zerotrie_build(
    alloc: Global,
    kind: u32,
    pairs: &[Pair<'_>],
    out: &mut [u8],
    len: &mut usize,
) -> u32 {
    let Some(kind) = kind_of(kind) else {
        return UNKNOWN_KIND;
    };
    match items_of(alloc, pairs) {
        Ok(items) => hand_out_trie(bytes_of(alloc, kind, items.as_slice()), out, len),
        Err(_) => OUT_OF_MEMORY,
    }
}

/// Returns the number of bytes of the trie of pairs whose keys ascend.
fn len_of_sorted(
    alloc: Global,
    kind: TrieKind,
    pairs: &[Pair<'_>],
) -> Result<usize, ZeroTrieBuildError> {
    let items = items_of(alloc, pairs)?;
    let items = ByteSliceWithIndices::from_byte_slice(items.as_slice());
    encoded_len(alloc, items, kind.options())
}

/// Sets `len` to the number of bytes that `zerotrie_build_sorted` writes for these pairs. Nothing
/// is built.
pub fn zerotrie_encoded_len(
    alloc: Global,
    kind: u32,
    pairs: &[Pair<'_>],
    len: &mut usize,
) -> u32 {
    let Some(kind) = kind_of(kind) else {
        return UNKNOWN_KIND;
    };
    match len_of_sorted(alloc, kind, pairs) {
        Ok(found) => {
            *len = found;
            DONE
        }
        Err(error) => status_of(error),
    }
}

/// Returns the number of the kind that suits the pairs: 0 if all keys are ASCII and there are fewer
/// than 512, else 3.
pub fn zerotrie_auto_kind(pairs: &[Pair<'_>]) -> u32 {
    u32::from(kind_for_pairs(pairs).tag())
}

/// The functions as C calls them: a slice is a pointer and a number of items.
#[allow(unsafe_code)]
mod exports {
    use super::*;

    #[unsafe(no_mangle)]
    unsafe extern "C" fn zerotrie_build_sorted(
        kind: u32,
        pairs: *const Pair<'_>,
        pairs_len: usize,
        out: *mut u8,
        out_len: usize,
        len: *mut usize,
    ) -> u32 {
        // SAFETY: a caller keeps to what zerotrie.h says.
        unsafe {
            super::zerotrie_build_sorted(
                Global,
                kind,
                crate::slice(pairs, pairs_len),
                crate::slice_mut(out, out_len),
                &mut *len,
            )
        }
    }

    #[unsafe(no_mangle)]
    unsafe extern "C" fn zerotrie_build(
        kind: u32,
        pairs: *const Pair<'_>,
        pairs_len: usize,
        out: *mut u8,
        out_len: usize,
        len: *mut usize,
    ) -> u32 {
        // SAFETY: a caller keeps to what zerotrie.h says.
        unsafe {
            super::zerotrie_build(
                Global,
                kind,
                crate::slice(pairs, pairs_len),
                crate::slice_mut(out, out_len),
                &mut *len,
            )
        }
    }

    #[unsafe(no_mangle)]
    unsafe extern "C" fn zerotrie_encoded_len(
        kind: u32,
        pairs: *const Pair<'_>,
        pairs_len: usize,
        len: *mut usize,
    ) -> u32 {
        // SAFETY: a caller keeps to what zerotrie.h says.
        unsafe {
            super::zerotrie_encoded_len(
                Global,
                kind,
                crate::slice(pairs, pairs_len),
                &mut *len,
            )
        }
    }

    #[unsafe(no_mangle)]
    unsafe extern "C" fn zerotrie_auto_kind(pairs: *const Pair<'_>, pairs_len: usize) -> u32 {
        // SAFETY: a caller keeps to what zerotrie.h says.
        unsafe {
            super::zerotrie_auto_kind(crate::slice(pairs, pairs_len))
        }
    }
}
