// Made from crates/zerotrie_c/src/files.rt by rust/make: edit that.
//! Sealed files, and what is in a file.

use crate::zerotrie_c::builds::hand_out;
use crate::zerotrie_c::numbers::{
    BUFFER_TOO_SMALL, DAMAGED, DONE, OUT_OF_MEMORY, UNKNOWN_KIND, UNKNOWN_VERSION, kind_of,
};
use crate::zerotrie_c::tags::{put_both, zerotrie_tagged_kind};
use crate::rstd::alloc::Global;
use crate::zerotrie_sealed::{
    HEADER_LEN, SealError, begins_sealed, header_of, open, open_index, seal_index,
};

/// Finds the trie in a file that begins as no sealed one.
fn open_tagged(file: &[u8], kind: &mut u32, at: &mut usize, trie_len: &mut usize) -> u32 {
    let status = zerotrie_tagged_kind(file, kind);
    if status == DONE {
        *at = 1;
        *trie_len = file.len() - 1;
    }
    status
}

/// Returns the status of an error of a file that is to be a sealed one.
fn seal_status_of(error: SealError) -> u32 {
    match error {
        SealError::UnknownVersion(_) => UNKNOWN_VERSION,
        SealError::NoMagic => DAMAGED,
        SealError::UnknownKind(_) => DAMAGED,
        SealError::CutShort => DAMAGED,
        SealError::TooLong => DAMAGED,
        SealError::Checksum => DAMAGED,
    }
}

/// Finds the trie in a file that begins as a sealed one.
fn open_sealed(file: &[u8], kind: &mut u32, at: &mut usize, trie_len: &mut usize) -> u32 {
    match open(file) {
        Ok(sealed) => {
            *kind = u32::from(sealed.kind.tag());
            *at = HEADER_LEN;
            *trie_len = sealed.trie.len();
            DONE
        }
        Err(error) => seal_status_of(error),
    }
}

/// Finds the trie in a file, which is sealed or tagged bytes: sets `kind` to its kind, `at` to
/// where its bytes begin, and `trie_len` to their number. It does not validate the trie.
///
/// A sealed file is taken exactly if its parts agree, and the bytes that it finds are those that
/// were sealed. If the file is refused, nothing is written.
pub fn zerotrie_open(
    file: &[u8],
    kind: &mut u32,
    at: &mut usize,
    trie_len: &mut usize,
) -> u32 {
    if begins_sealed(file) {
        open_sealed(file, kind, at, trie_len)
    } else {
        open_tagged(file, kind, at, trie_len)
    }
}

/// Writes the sealed file of a trie to the beginning of `out`, if there is room, and sets
/// `sealed_len`.
pub fn zerotrie_seal(
    kind: u32,
    bytes: &[u8],
    out: &mut [u8],
    sealed_len: &mut usize,
) -> u32 {
    let Some(kind) = kind_of(kind) else {
        return UNKNOWN_KIND;
    };
    let len = HEADER_LEN + bytes.len();
    *sealed_len = len;
    if out.len() < len {
        return BUFFER_TOO_SMALL;
    }
    put_both(&header_of(kind, bytes), bytes, out);
    DONE
}

/// Finds the index in a sealed file, as a whole or in blocks: sets `at` to where its bytes begin,
/// and `index_len` to their number. They reach to the end of the file. It does not validate the
/// index.
///
/// A file is taken exactly if its parts agree, and the bytes that it finds are those that were
/// sealed. If the file is refused, nothing is written.
pub fn zerotrie_open_index(file: &[u8], at: &mut usize, index_len: &mut usize) -> u32 {
    match open_index(file) {
        Ok(index) => {
            *at = file.len() - index.len();
            *index_len = index.len();
            DONE
        }
        Err(error) => seal_status_of(error),
    }
}

/// Writes the sealed file of an index, in blocks, to the beginning of `out`, if there is room, and
/// sets `sealed_len`.
pub fn zerotrie_seal_index(
    alloc: Global,
    index: &[u8],
    out: &mut [u8],
    sealed_len: &mut usize,
) -> u32 {
    match seal_index(alloc, index) {
        Ok(file) => hand_out(file.as_slice(), out, sealed_len),
        Err(_) => OUT_OF_MEMORY,
    }
}

/// The functions as C calls them: a slice is a pointer and a number of items.
#[allow(unsafe_code)]
mod exports {
    use super::*;

    #[unsafe(no_mangle)]
    unsafe extern "C" fn zerotrie_open(
        file: *const u8,
        file_len: usize,
        kind: *mut u32,
        at: *mut usize,
        trie_len: *mut usize,
    ) -> u32 {
        // SAFETY: a caller keeps to what zerotrie.h says.
        unsafe {
            super::zerotrie_open(
                crate::slice(file, file_len),
                &mut *kind,
                &mut *at,
                &mut *trie_len,
            )
        }
    }

    #[unsafe(no_mangle)]
    unsafe extern "C" fn zerotrie_seal(
        kind: u32,
        bytes: *const u8,
        bytes_len: usize,
        out: *mut u8,
        out_len: usize,
        sealed_len: *mut usize,
    ) -> u32 {
        // SAFETY: a caller keeps to what zerotrie.h says.
        unsafe {
            super::zerotrie_seal(
                kind,
                crate::slice(bytes, bytes_len),
                crate::slice_mut(out, out_len),
                &mut *sealed_len,
            )
        }
    }

    #[unsafe(no_mangle)]
    unsafe extern "C" fn zerotrie_open_index(
        file: *const u8,
        file_len: usize,
        at: *mut usize,
        index_len: *mut usize,
    ) -> u32 {
        // SAFETY: a caller keeps to what zerotrie.h says.
        unsafe {
            super::zerotrie_open_index(
                crate::slice(file, file_len),
                &mut *at,
                &mut *index_len,
            )
        }
    }

    #[unsafe(no_mangle)]
    unsafe extern "C" fn zerotrie_seal_index(
        index: *const u8,
        index_len: usize,
        out: *mut u8,
        out_len: usize,
        sealed_len: *mut usize,
    ) -> u32 {
        // SAFETY: a caller keeps to what zerotrie.h says.
        unsafe {
            super::zerotrie_seal_index(
                Global,
                crate::slice(index, index_len),
                crate::slice_mut(out, out_len),
                &mut *sealed_len,
            )
        }
    }
}
