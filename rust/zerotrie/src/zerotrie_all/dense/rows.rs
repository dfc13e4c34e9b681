// Made from crates/zerotrie/src/dense/rows.rt by rust/make: edit that.
//! The rows of a table to build, and which of them are dense.

use crate::rstd::prelude::*;
use crate::rstd::alloc::{AllocError, Global};
use crate::rstd::collections::BTreeMap;
use crate::zerotrie_build::{ByteSliceWithIndices, encoded_len};
use crate::zerotrie_core::{Simple, ZeroTrieBuildError, ZeroTrieBuilderOptions};

/// A row of a table.
#[derive(Debug)]
pub(in crate::made::zerotrie_all) struct Row<'m, 's> {
    /// The prefix that names the row.
    pub(in crate::made::zerotrie_all) prefix: &'m str,
    /// Its suffixes and their values.
    pub(in crate::made::zerotrie_all) entries: &'m BTreeMap<&'s str, usize>,
    /// The first number of its window.
    pub(in crate::made::zerotrie_all) offset: usize,
    /// Whether its window is in the matrix.
    pub(in crate::made::zerotrie_all) is_dense: bool,
}

/// Returns the values of a row.
#[inline]
fn values_of(alloc: Global, entries: &BTreeMap<&str, usize>) -> Result<Vec<usize>, AllocError> {
    let mut values = Vec::new(alloc);
    for (_, value) in entries {
        values.push(*value)?;
    }
    Ok(values)
}

/// Returns the least start of a window that has the most of the values of a row.
#[inline]
fn offset_of(alloc: Global, entries: &BTreeMap<&str, usize>) -> Result<usize, AllocError> {
    let mut values = values_of(alloc, entries)?;
    values.sort_unstable();
    Ok(fullest_in(values.as_slice()))
}

/// Returns the pairs of a row whose values are in the window that begins at `start`.
#[inline]
fn pairs_inside<'s>(
    alloc: Global,
    entries: &BTreeMap<&'s str, usize>,
    start: usize,
) -> Result<Vec<(&'s str, usize)>, AllocError> {
    let mut pairs = Vec::new(alloc);
    for (suffix, value) in entries {
        if is_in_window(start, *value) {
            pairs.push((*suffix, *value))?;
        }
    }
    Ok(pairs)
}

/// Returns whether the row has the empty suffix with a value outside the window that begins at
/// `start`.
#[inline]
fn has_empty_outside(entries: &BTreeMap<&str, usize>, start: usize) -> bool {
    match entries.get("") {
        Some(value) => !is_in_window(start, *value),
        None => false,
    }
}

/// Returns the length that the trie of the window of a row would have.
#[inline]
fn window_len(
    alloc: Global,
    entries: &BTreeMap<&str, usize>,
    start: usize,
) -> Result<usize, ZeroTrieBuildError> {
    let pairs = pairs_inside(alloc, entries, start)?;
    let items = ByteSliceWithIndices::from_str_slice(pairs.as_slice());
    let len = encoded_len(alloc, items, ZeroTrieBuilderOptions::of::<Simple>())?;
    Ok(len)
}

/// Returns whether a row is in the matrix of a table with this number of suffixes: its window would
/// be longer as a trie, and the empty suffix is not outside the window.
#[inline]
fn is_dense_row(
    alloc: Global,
    entries: &BTreeMap<&str, usize>,
    start: usize,
    columns: usize,
) -> Result<bool, ZeroTrieBuildError> {
    let len = window_len(alloc, entries, start)?;
    Ok(len > 2 * columns && !has_empty_outside(entries, start))
}

/// Returns a row of a table with this number of suffixes.
#[inline]
fn row_of<'m, 's>(
    alloc: Global,
    prefix: &'m str,
    entries: &'m BTreeMap<&'s str, usize>,
    columns: usize,
) -> Result<Row<'m, 's>, ZeroTrieBuildError> {
    let offset = offset_of(alloc, entries)?;
    let is_dense = is_dense_row(alloc, entries, offset, columns)?;
    Ok(Row {
        prefix,
        entries,
        offset,
        is_dense,
    })
}

/// Returns the rows of a table with this number of suffixes, in their order.
#[inline]
pub(in crate::made::zerotrie_all) fn rows_of<'m, 's>(
    alloc: Global,
    entries: &'m BTreeMap<&str, BTreeMap<&'s str, usize>>,
    columns: usize,
) -> Result<Vec<Row<'m, 's>>, ZeroTrieBuildError> {
    let mut rows = Vec::new(alloc);
    for (prefix, row) in entries {
        rows.push(row_of(alloc, prefix, row, columns)?)?;
    }
    Ok(rows)
}

/// The length of a window.
const WINDOW: usize = 65_535;

/// Returns whether the value is in the window that begins at `start`.
#[inline]
pub(in crate::made::zerotrie_all) fn is_in_window(start: usize, value: usize) -> bool {
    start <= value && value - start < WINDOW
}

/// Returns the start of the window that has the most of the values; the least such start; 0 if
/// there are no values. The values must ascend.
///
/// A range of neighbours moves along the values. It grows while it fits a window, and otherwise
/// moves on by one, so in the end it is as long as the longest that fits.
#[inline]
pub(in crate::made::zerotrie_all) fn fullest_in(values: &[usize]) -> usize {
    let mut fullest = 0;
    let mut first = 0;
    for last in 0..values.len() {
        if is_in_window(values[first], values[last]) {
            fullest = values[first];
        } else {
            first += 1;
        }
    }
    fullest
}
