// Made from crates/zerotrie_c/src/entries.rt by rust/make: edit that.
//! The entries of a dense table, two lists of strings and one of values, as a map of maps.

use crate::zerotrie_c::many::key_between;
use crate::rstd::alloc::Global;
use crate::rstd::cmp::Ordering;
use crate::rstd::collections::BTreeMap;
use crate::zerotrie_core::ZeroTrieBuildError;

/// Strings one after another, and where each ends.
#[derive(Clone, Copy)]
pub struct Texts<'a> {
    pub bytes: &'a [u8],
    pub ends: &'a [usize],
}

/// Returns bytes as a string.
fn text_of(bytes: &[u8]) -> Result<&str, ZeroTrieBuildError> {
    match crate::rstd::str::from_utf8(bytes) {
        Ok(text) => Ok(text),
        Err(_) => Err(ZeroTrieBuildError::NonAsciiError),
    }
}

/// Returns whether a suffix is below all those of a row.
fn is_below(suffix: &str, row: &BTreeMap<&str, usize>) -> bool {
    match row.first_key_value() {
        Some((first, _)) => suffix < *first,
        None => true,
    }
}

/// Adds a suffix at the beginning of a row.
fn put_suffix<'t>(
    row: &mut BTreeMap<&'t str, usize>,
    suffix: &'t str,
    value: usize,
) -> Result<(), ZeroTrieBuildError> {
    if !is_below(suffix, row) {
        return Err(ZeroTrieBuildError::Unsorted);
    }
    row.insert(suffix, value)?;
    Ok(())
}

/// Returns a row of one suffix.
fn row_of<'t>(
    alloc: Global,
    suffix: &'t str,
    value: usize,
) -> Result<BTreeMap<&'t str, usize>, ZeroTrieBuildError> {
    let mut row = BTreeMap::new(alloc);
    row.insert(suffix, value)?;
    Ok(row)
}

/// Adds a row before others.
fn put_row<'t>(
    rows: &mut BTreeMap<&'t str, BTreeMap<&'t str, usize>>,
    prefix: &'t str,
    row: BTreeMap<&'t str, usize>,
) -> Result<(), ZeroTrieBuildError> {
    rows.insert(prefix, row)?;
    Ok(())
}

/// Adds an entry before rows. Its prefix is that of the first row, or below it.
fn put_entry<'t>(
    alloc: Global,
    rows: &mut BTreeMap<&'t str, BTreeMap<&'t str, usize>>,
    prefix: &'t str,
    suffix: &'t str,
    value: usize,
) -> Result<(), ZeroTrieBuildError> {
    let Some((first, mut row)) = rows.pop_first() else {
        let row = row_of(alloc, suffix, value)?;
        return put_row(rows, prefix, row);
    };
    match prefix.cmp(first) {
        Ordering::Less => {
            put_row(rows, first, row)?;
            let row = row_of(alloc, suffix, value)?;
            put_row(rows, prefix, row)
        }
        Ordering::Equal => {
            put_suffix(&mut row, suffix, value)?;
            put_row(rows, first, row)
        }
        Ordering::Greater => Err(ZeroTrieBuildError::Unsorted),
    }
}

/// Adds an entry whose strings are bytes before rows.
fn put_texts<'t>(
    alloc: Global,
    rows: &mut BTreeMap<&'t str, BTreeMap<&'t str, usize>>,
    prefix: &'t [u8],
    suffix: &'t [u8],
    value: usize,
) -> Result<(), ZeroTrieBuildError> {
    let prefix = text_of(prefix)?;
    let suffix = text_of(suffix)?;
    put_entry(alloc, rows, prefix, suffix, value)
}

/// Returns where the key with this number begins: where the one before it ends.
fn start_of(ends: &[usize], number: usize) -> usize {
    match number {
        0 => 0,
        _ => ends[number - 1],
    }
}

/// Returns the key with this number.
fn key_at<'b>(bytes: &'b [u8], ends: &[usize], number: usize) -> &'b [u8] {
    key_between(bytes, start_of(ends, number), ends[number])
}

/// Returns the rows of entries, which are sorted by prefix, and under one prefix by suffix.
///
/// There are as many entries as the shortest of the three lists has.
pub fn rows_of<'t>(
    alloc: Global,
    prefixes: Texts<'t>,
    suffixes: Texts<'t>,
    values: &[usize],
) -> Result<BTreeMap<&'t str, BTreeMap<&'t str, usize>>, ZeroTrieBuildError> {
    let count = prefixes
        .ends
        .len()
        .min(suffixes.ends.len())
        .min(values.len());
    let mut rows = BTreeMap::new(alloc);
    for number in (0..count).rev() {
        let prefix = key_at(prefixes.bytes, prefixes.ends, number);
        let suffix = key_at(suffixes.bytes, suffixes.ends, number);
        put_texts(alloc, &mut rows, prefix, suffix, values[number])?;
    }
    Ok(rows)
}
