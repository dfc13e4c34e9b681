// Made from crates/zerotrie_c/src/sorted.rt by rust/make: edit that.
//! Listings in the order of bytes, a part at a time.

use crate::zerotrie_c::numbers::{UNKNOWN_KIND, UNKNOWN_SEARCH, trie_of};
use crate::zerotrie_c::parts::fill;
use crate::zerotrie_c::searches::bound_with;
use crate::rstd::alloc::Global;
use crate::rstd::ops::Bound;
use crate::zerotrie_search::Search;

/// Returns the lower and the upper bound with these numbers at two keys, or `None` if a number is
/// that of no bound.
pub fn bounds_with<'f, 't>(
    from_bound: u32,
    from: &'f [u8],
    to_bound: u32,
    to: &'t [u8],
) -> Option<(Bound<&'f [u8]>, Bound<&'t [u8]>)> {
    let from = bound_with(from_bound, from)?;
    let to = bound_with(to_bound, to)?;
    Some((from, to))
}

/// Writes the pairs whose keys are between two bounds, in the order of bytes in every kind, as many
/// as the rooms have places for: the keys one after another, where each ends, and the values. To
/// continue after the last key that a call wrote, give that key as an excluded lower bound.
///
/// The rooms, `count`, `next_len` and the status are as in `zerotrie_list_some`. If no kind or no
/// bound has the number, nothing is written. A call costs a look-up of the lower bound, and compares
/// the edges at each byte of the keys that it lists.
///
/// On malformed bytes it does the same for some pairs, at most as many as there are bytes.
pub fn zerotrie_sorted_some(
    alloc: Global,
    kind: u32,
    bytes: &[u8],
    from_bound: u32,
    from: &[u8],
    to_bound: u32,
    to: &[u8],
    keys: &mut [u8],
    ends: &mut [usize],
    values: &mut [usize],
    count: &mut usize,
    next_len: &mut usize,
) -> u32 {
    let Some(trie) = trie_of(kind, bytes) else {
        return UNKNOWN_KIND;
    };
    let Some((from, to)) = bounds_with(from_bound, from, to_bound, to) else {
        return UNKNOWN_SEARCH;
    };
    let pairs = trie.stream_sorted(alloc, from, to);
    fill(pairs, *next_len, keys, ends, values).unpack(count, next_len)
}

/// The functions as C calls them: a slice is a pointer and a number of items.
#[allow(unsafe_code)]
mod exports {
    use super::*;

    #[unsafe(no_mangle)]
    unsafe extern "C" fn zerotrie_sorted_some(
        kind: u32,
        bytes: *const u8,
        bytes_len: usize,
        from_bound: u32,
        from: *const u8,
        from_len: usize,
        to_bound: u32,
        to: *const u8,
        to_len: usize,
        keys: *mut u8,
        keys_len: usize,
        ends: *mut usize,
        ends_len: usize,
        values: *mut usize,
        values_len: usize,
        count: *mut usize,
        next_len: *mut usize,
    ) -> u32 {
        // SAFETY: a caller keeps to what zerotrie.h says.
        unsafe {
            super::zerotrie_sorted_some(
                Global,
                kind,
                crate::slice(bytes, bytes_len),
                from_bound,
                crate::slice(from, from_len),
                to_bound,
                crate::slice(to, to_len),
                crate::slice_mut(keys, keys_len),
                crate::slice_mut(ends, ends_len),
                crate::slice_mut(values, values_len),
                &mut *count,
                &mut *next_len,
            )
        }
    }
}
