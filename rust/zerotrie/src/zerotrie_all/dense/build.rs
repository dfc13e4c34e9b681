// Made from crates/zerotrie/src/dense/build.rt by rust/make: edit that.
//! Builds dense tables.

use crate::rstd::prelude::*;
use crate::zerotrie_all::dense::rows::{Row, is_in_window, rows_of};
use crate::zerotrie_all::dense::table::ZeroAsciiDenseSparse2dTrieOwned;
use crate::rstd::alloc::{AllocError, Global};
use crate::rstd::collections::{BTreeMap, BTreeSet};
use crate::zerotrie_ascii::ZeroTrieSimpleAscii;
use crate::zerotrie_core::ZeroTrieBuildError;

/// A key of the primary trie, and its value.
type Pair = (Vec<u8>, usize);

/// Returns an error if a string is not ASCII or has the delimiter.
#[inline]
fn check_text(text: &str, delimiter: u8) -> Result<(), ZeroTrieBuildError> {
    if !text.is_ascii() {
        return Err(ZeroTrieBuildError::NonAsciiError);
    }
    if text.as_bytes().contains(&delimiter) {
        return Err(ZeroTrieBuildError::IllegalDelimiter);
    }
    Ok(())
}

/// States that a value is a number of eight bytes. Does nothing.
#[inline]
fn fits_eight_bytes(value: usize) {}

/// Checks the suffixes of a row.
#[inline]
fn check_row(entries: &BTreeMap<&str, usize>, delimiter: u8) -> Result<(), ZeroTrieBuildError> {
    for (suffix, value) in entries {
        fits_eight_bytes(*value);
        check_text(suffix, delimiter)?;
    }
    Ok(())
}

/// Checks the delimiter and all prefixes and suffixes of a table.
#[inline]
fn check_texts(
    entries: &BTreeMap<&str, BTreeMap<&str, usize>>,
    delimiter: u8,
) -> Result<(), ZeroTrieBuildError> {
    if !delimiter.is_ascii() {
        return Err(ZeroTrieBuildError::NonAsciiError);
    }
    for (prefix, row) in entries {
        check_text(prefix, delimiter)?;
        check_row(row, delimiter)?;
    }
    Ok(())
}

/// Adds the suffixes of a row to those of other rows.
#[inline]
fn put_suffixes<'s>(
    entries: &BTreeMap<&'s str, usize>,
    suffixes: &mut BTreeSet<&'s str>,
) -> Result<(), AllocError> {
    for (suffix, _) in entries {
        suffixes.insert(*suffix)?;
    }
    Ok(())
}

/// Returns the suffixes of all rows, each once.
#[inline]
fn suffixes_of<'s>(
    alloc: Global,
    entries: &BTreeMap<&str, BTreeMap<&'s str, usize>>,
) -> Result<BTreeSet<&'s str>, AllocError> {
    let mut suffixes = BTreeSet::new(alloc);
    for (_, row) in entries {
        put_suffixes(row, &mut suffixes)?;
    }
    Ok(suffixes)
}

/// Returns each suffix with its column.
#[inline]
fn columns_of<'s>(
    alloc: Global,
    suffixes: &BTreeSet<&'s str>,
) -> Result<Vec<(&'s [u8], usize)>, AllocError> {
    let mut columns = Vec::new(alloc);
    for suffix in suffixes {
        let column = columns.len();
        columns.push((suffix.as_bytes(), column))?;
    }
    Ok(columns)
}

/// Returns a prefix, the delimiter and a suffix, one after another.
#[inline]
fn key_of(alloc: Global, prefix: &str, delimiter: u8, suffix: &str) -> Result<Vec<u8>, AllocError> {
    let mut key = Vec::from_slice(alloc, prefix.as_bytes())?;
    key.push(delimiter)?;
    key.extend_from_slice(suffix.as_bytes())?;
    Ok(key)
}

/// Adds the prefix of each dense row, with the row's number.
#[inline]
fn push_numbers(
    alloc: Global,
    rows: &[Row<'_, '_>],
    pairs: &mut Vec<Pair>,
) -> Result<(), ZeroTrieBuildError> {
    let mut number = 0;
    for row in rows {
        if row.is_dense {
            pairs.push((Vec::from_slice(alloc, row.prefix.as_bytes())?, number))?;
            number += 1;
        }
    }
    Ok(())
}

/// Adds the prefix of each dense row and the delimiter, with the row's offset.
#[inline]
fn push_offsets(
    alloc: Global,
    rows: &[Row<'_, '_>],
    delimiter: u8,
    pairs: &mut Vec<Pair>,
) -> Result<(), ZeroTrieBuildError> {
    for row in rows {
        if row.is_dense {
            pairs.push((key_of(alloc, row.prefix, delimiter, "")?, row.offset))?;
        }
    }
    Ok(())
}

/// Adds the values of a row that are not in the matrix.
#[inline]
fn push_others_of(
    alloc: Global,
    row: &Row<'_, '_>,
    delimiter: u8,
    pairs: &mut Vec<Pair>,
) -> Result<(), ZeroTrieBuildError> {
    for (suffix, value) in row.entries {
        if !(row.is_dense && is_in_window(row.offset, *value)) {
            pairs.push((key_of(alloc, row.prefix, delimiter, suffix)?, *value))?;
        }
    }
    Ok(())
}

/// Adds the values of all rows that are not in the matrix.
#[inline]
fn push_others(
    alloc: Global,
    rows: &[Row<'_, '_>],
    delimiter: u8,
    pairs: &mut Vec<Pair>,
) -> Result<(), ZeroTrieBuildError> {
    for row in rows {
        push_others_of(alloc, row, delimiter, pairs)?;
    }
    Ok(())
}

/// Returns the pairs of the primary trie.
#[inline]
fn primary_of(
    alloc: Global,
    rows: &[Row<'_, '_>],
    delimiter: u8,
) -> Result<Vec<Pair>, ZeroTrieBuildError> {
    let mut pairs = Vec::new(alloc);
    push_numbers(alloc, rows, &mut pairs)?;
    push_offsets(alloc, rows, delimiter, &mut pairs)?;
    push_others(alloc, rows, delimiter, &mut pairs)?;
    Ok(pairs)
}

/// Returns the cell of a suffix: the value in the row's window minus the row's offset, or 65,535.
#[inline]
fn cell_in(row: &Row<'_, '_>, suffix: &str) -> u16 {
    match row.entries.get(suffix) {
        Some(value) => {
            if is_in_window(row.offset, *value) {
                (*value - row.offset) as u16
            } else {
                u16::MAX
            }
        }
        None => u16::MAX,
    }
}

/// Adds the cells of a row.
#[inline]
fn push_cells(
    row: &Row<'_, '_>,
    suffixes: &BTreeSet<&str>,
    matrix: &mut Vec<u8>,
) -> Result<(), AllocError> {
    for suffix in suffixes {
        let cell = cell_in(row, suffix);
        matrix.extend_from_slice(&cell.to_le_bytes())?;
    }
    Ok(())
}

/// Returns the cells of the dense rows.
#[inline]
fn matrix_of(
    alloc: Global,
    rows: &[Row<'_, '_>],
    suffixes: &BTreeSet<&str>,
) -> Result<Vec<u8>, AllocError> {
    let mut matrix = Vec::new(alloc);
    for row in rows {
        if row.is_dense {
            push_cells(row, suffixes, &mut matrix)?;
        }
    }
    Ok(matrix)
}

impl ZeroAsciiDenseSparse2dTrieOwned {
    /// Builds the table of a map from prefixes to maps from suffixes to numbers. A row without
    /// suffixes adds nothing.
    ///
    /// ```
    /// # use zerotrie::{rstd::examples::*, zerotrie_all::*, zerotrie_base::*, zerotrie_core::*, zerotrie_build::*, zerotrie_any::*, zerotrie_ascii::*, zerotrie_hashed::*};
    /// use zerotrie::zerotrie_all::dense::ZeroAsciiDenseSparse2dTrieOwned;
    ///
    /// let mut row: BTreeMap<&str, usize> = BTreeMap::new(Global);
    /// row.insert("US", 8)?;
    /// let mut rows: BTreeMap<&str, BTreeMap<&str, usize>> = BTreeMap::new(Global);
    /// rows.insert("en", row)?;
    /// let table = ZeroAsciiDenseSparse2dTrieOwned::try_from_btree_map_str(Global, &rows, b'/')?;
    /// assert_eq!(table.as_borrowed().get("en", "US"), Some(8));
    /// assert_eq!(table.as_borrowed().get("en", "UK"), None);
    /// # Ok::<(), Fail>(())
    /// ```
    ///
    /// # Errors
    ///
    /// - `NonAsciiError` if a string or the delimiter is not ASCII,
    /// - `IllegalDelimiter` if a string has the delimiter,
    /// - `CapacityExceeded` if there are more than 65,535 suffixes, or the primary trie, the trie
    ///   of the suffixes or the trie of a row's window would exceed the capacity of its kind,
    /// - `OutOfMemory` if an allocation fails.
    #[inline]
    pub fn try_from_btree_map_str(
        alloc: Global,
        entries: &BTreeMap<&str, BTreeMap<&str, usize>>,
        delimiter: u8,
    ) -> Result<Self, ZeroTrieBuildError> {
        check_texts(entries, delimiter)?;
        let suffixes = suffixes_of(alloc, entries)?;
        let columns = columns_of(alloc, &suffixes)?;
        let Ok(suffix_count) = u16::try_from(columns.len()) else {
            return Err(ZeroTrieBuildError::CapacityExceeded);
        };
        let rows = rows_of(alloc, entries, columns.len())?;
        let pairs = primary_of(alloc, rows.as_slice(), delimiter)?;
        Ok(ZeroAsciiDenseSparse2dTrieOwned {
            primary: ZeroTrieSimpleAscii::try_from_iter(alloc, pairs)?,
            suffixes: ZeroTrieSimpleAscii::try_from_sorted_slice(alloc, columns.as_slice())?,
            matrix: matrix_of(alloc, rows.as_slice(), &suffixes)?,
            suffix_count,
            delimiter,
        })
    }
}
