// Made from crates/zerotrie_c/src/dense.rt by rust/make: edit that.
//! Dense tables: two-dimensional maps from two strings to numbers, each as a record of bytes.

use crate::rstd::prelude::*;
use crate::zerotrie_c::builds::hand_out;
use crate::zerotrie_c::entries::{Texts, rows_of};
use crate::zerotrie_c::numbers::{DONE, NO_ENTRY, RECORD_TRUNCATED, TRAILING_BYTES, status_of};
use crate::rstd::alloc::Global;
use crate::rstd::collections::BTreeMap;
use crate::zerotrie_all::dense::{
    RecordError, ZeroAsciiDenseSparse2dTrieBorrowed, ZeroAsciiDenseSparse2dTrieOwned,
};
use crate::zerotrie_core::ZeroTrieBuildError;

/// Sets `value` to the value found, if there is one.
fn tell(answer: Option<usize>, value: &mut usize) -> u32 {
    match answer {
        Some(found) => {
            *value = found;
            DONE
        }
        None => NO_ENTRY,
    }
}

/// Looks up a suffix under a prefix in the table of this record. If there is a value, sets `value`
/// to it.
pub fn zerotrie_dense_get(
    bytes: &[u8],
    prefix: &[u8],
    suffix: &[u8],
    value: &mut usize,
) -> u32 {
    match ZeroAsciiDenseSparse2dTrieBorrowed::try_from_record_bytes(bytes) {
        Ok(table) => tell(table.get_bytes(prefix, suffix), value),
        Err(RecordError::Truncated) => RECORD_TRUNCATED,
        Err(RecordError::TrailingBytes) => TRAILING_BYTES,
    }
}

/// Returns the record of the table of rows.
fn record_of_rows(
    alloc: Global,
    rows: &BTreeMap<&str, BTreeMap<&str, usize>>,
    delimiter: u8,
) -> Result<Vec<u8>, ZeroTrieBuildError> {
    let table = ZeroAsciiDenseSparse2dTrieOwned::try_from_btree_map_str(alloc, rows, delimiter)?;
    let record = table.as_borrowed().to_record_bytes(alloc)?;
    Ok(record)
}

/// Returns the record of the table of entries.
fn record_given(
    alloc: Global,
    prefixes: Texts<'_>,
    suffixes: Texts<'_>,
    values: &[usize],
    delimiter: u8,
) -> Result<Vec<u8>, ZeroTrieBuildError> {
    let rows = rows_of(alloc, prefixes, suffixes, values)?;
    record_of_rows(alloc, &rows, delimiter)
}

/// Builds the table of entries, each a prefix, a suffix and a value, and writes its record to
/// `out`. The entries are sorted by prefix, and those of one prefix by suffix.
///
/// `prefixes` and `suffixes` have the strings one after another, each up to its end. An end past
/// all bytes counts as their end, and an end below the one before it makes an empty string. There
/// are as many entries as the shortest of `prefix_ends`, `suffix_ends` and `values` has.
pub fn zerotrie_dense_build(
    alloc: Global,
    prefixes: &[u8],
    prefix_ends: &[usize],
    suffixes: &[u8],
    suffix_ends: &[usize],
    values: &[usize],
    delimiter: u8,
    out: &mut [u8],
    len: &mut usize,
) -> u32 {
    let prefixes = Texts {
        bytes: prefixes,
        ends: prefix_ends,
    };
    let suffixes = Texts {
        bytes: suffixes,
        ends: suffix_ends,
    };
    match record_given(alloc, prefixes, suffixes, values, delimiter) {
        Ok(record) => hand_out(record.as_slice(), out, len),
        Err(error) => status_of(error),
    }
}

/// The functions as C calls them: a slice is a pointer and a number of items.
#[allow(unsafe_code)]
mod exports {
    use super::*;

    #[unsafe(no_mangle)]
    unsafe extern "C" fn zerotrie_dense_get(
        bytes: *const u8,
        bytes_len: usize,
        prefix: *const u8,
        prefix_len: usize,
        suffix: *const u8,
        suffix_len: usize,
        value: *mut usize,
    ) -> u32 {
        // SAFETY: a caller keeps to what zerotrie.h says.
        unsafe {
            super::zerotrie_dense_get(
                crate::slice(bytes, bytes_len),
                crate::slice(prefix, prefix_len),
                crate::slice(suffix, suffix_len),
                &mut *value,
            )
        }
    }

    #[unsafe(no_mangle)]
    unsafe extern "C" fn zerotrie_dense_build(
        prefixes: *const u8,
        prefixes_len: usize,
        prefix_ends: *const usize,
        prefix_ends_len: usize,
        suffixes: *const u8,
        suffixes_len: usize,
        suffix_ends: *const usize,
        suffix_ends_len: usize,
        values: *const usize,
        values_len: usize,
        delimiter: u8,
        out: *mut u8,
        out_len: usize,
        len: *mut usize,
    ) -> u32 {
        // SAFETY: a caller keeps to what zerotrie.h says.
        unsafe {
            super::zerotrie_dense_build(
                Global,
                crate::slice(prefixes, prefixes_len),
                crate::slice(prefix_ends, prefix_ends_len),
                crate::slice(suffixes, suffixes_len),
                crate::slice(suffix_ends, suffix_ends_len),
                crate::slice(values, values_len),
                delimiter,
                crate::slice_mut(out, out_len),
                &mut *len,
            )
        }
    }
}
