// Made from crates/zerotrie_core/src/simd/edge_search.rt by rust/make: edit that.
//! Binary search for a byte among sorted edges.

use crate::zerotrie_base::{ZeroTrieWithOptions, folded};

/// Returns `half` if `middle` is not above `byte`, and 0 otherwise, without a jump.
#[inline(always)]
fn half_passed(half: usize, middle: u8, byte: u8) -> usize {
    half * ((256 + byte as usize - middle as usize) / 256)
}

/// Returns the only place in a window of a table where a folded byte can be. The folded bytes of
/// the table must rise.
#[inline(always)]
fn place_in_window<K: ZeroTrieWithOptions>(
    table: &[u8],
    first: usize,
    count: usize,
    sought: u8,
) -> usize {
    let mut base = first;
    let mut left = count;
    while left > 1 {
        let half = left / 2;
        let middle = folded::<K>(table[base + half]);
        base += half_passed(half, middle, sought);
        left -= half;
    }
    base
}

/// Returns the place of a byte in a table whose folded bytes rise.
///
/// As each byte is above the one before it, the first and the last bound the place. Then the search
/// halves what is left, without jumps that depend on the bytes: they can't be predicted.
#[inline(always)]
pub(in crate::made::zerotrie_core) fn place_in<K: ZeroTrieWithOptions>(table: &[u8], byte: u8) -> Option<usize> {
    let end = table.len().checked_sub(1)?;
    let sought = folded::<K>(byte);
    let first = folded::<K>(table[0]);
    let last = folded::<K>(table[end]);
    if sought < first || last < sought {
        return None;
    }
    let base = end.saturating_sub((last - sought) as usize);
    let left = (end.min((sought - first) as usize) + 1).saturating_sub(base);
    if left == 0 {
        return None;
    }
    let place = place_in_window::<K>(table, base, left, sought);
    (folded::<K>(table[place]) == sought).then_some(place)
}

/// Returns the place if it is before the end.
#[inline(always)]
pub(in crate::made::zerotrie_core) fn before_end(place: usize, end: usize) -> Option<usize> {
    if place < end { Some(place) } else { None }
}
