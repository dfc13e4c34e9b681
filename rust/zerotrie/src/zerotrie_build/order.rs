// Made from crates/zerotrie_build/src/order.rt by rust/make: edit that.
//! The order that the keys of a kind have: the tests that items are in it, that no key comes twice,
//! and that keys have bytes of the kind alone.

use crate::zerotrie_build::items::IndexedItems;
use crate::zerotrie_base::{Simple, ZeroTrieBuildError, ZeroTrieWithOptions, folded};

/// Returns how many bytes two keys have in common in front.
pub(in crate::made::zerotrie_build) fn common_front_len(before: &[u8], key: &[u8]) -> usize {
    let mut count = 0;
    while count < before.len() && count < key.len() && before[count] == key[count] {
        count += 1;
    }
    count
}

/// Returns the fold of the key's byte at the place, or zero if the key has ended.
#[inline(always)]
fn digit_at<K: ZeroTrieWithOptions>(key: &[u8], place: usize) -> u8 {
    match key.get(place).copied() {
        Some(byte) => folded::<K>(byte),
        None => 0,
    }
}

/// Like `prefix_of`, for a key of any length.
#[inline(always)]
fn prefix_by_digits<K: ZeroTrieWithOptions>(key: &[u8]) -> u64 {
    let mut prefix = 0;
    for place in 0..8 {
        prefix = 256 * prefix + digit_at::<K>(key, place) as u64;
    }
    prefix
}

/// Like `prefix_of`, for a key of eight bytes, which are read at once.
#[inline(always)]
fn prefix_of_eight<K: ZeroTrieWithOptions>(key: &[u8]) -> u64 {
    u64::from_be_bytes([
        folded::<K>(key[0]),
        folded::<K>(key[1]),
        folded::<K>(key[2]),
        folded::<K>(key[3]),
        folded::<K>(key[4]),
        folded::<K>(key[5]),
        folded::<K>(key[6]),
        folded::<K>(key[7]),
    ])
}

/// Returns the folds of the key's first eight bytes as one number, the first of them highest.
#[inline(always)]
pub(in crate::made::zerotrie_build) fn prefix_of<K: ZeroTrieWithOptions>(key: &[u8]) -> u64 {
    match key.get(..8) {
        Some(front) => prefix_of_eight::<K>(front),
        None => prefix_by_digits::<K>(key),
    }
}

/// Returns whether the key comes before the next, if their prefixes show it. If case is ignored
/// they don't.
#[inline(always)]
fn precedes_by_prefix<K: ZeroTrieWithOptions>(key: &[u8], next: &[u8]) -> Option<bool> {
    if K::IGNORE_CASE {
        return None;
    }
    let (first, second) = (prefix_of::<K>(key), prefix_of::<K>(next));
    if first == second {
        return None;
    }
    Some(first < second)
}

/// Returns whether the key ends where the two part, or has a byte there whose fold is lower.
pub(in crate::made::zerotrie_build) fn precedes<K: ZeroTrieWithOptions>(key: &[u8], next: &[u8]) -> bool {
    if let Some(yes) = precedes_by_prefix::<K>(key, next) {
        return yes;
    }
    let common = common_front_len(key, next);
    if common == next.len() {
        return false;
    }
    common == key.len() || folded::<K>(key[common]) < folded::<K>(next[common])
}

/// Returns the number of the first item whose key does not come before the next.
#[inline(always)]
pub(in crate::made::zerotrie_build) fn first_unordered<'a, K: ZeroTrieWithOptions, I: IndexedItems<'a>>(
    items: I,
) -> Option<usize> {
    for index in 1..items.len() {
        let (key, _) = items.get(index - 1);
        let (next, _) = items.get(index);
        if !precedes::<K>(key, next) {
            return Some(index - 1);
        }
    }
    None
}

/// Returns whether each key comes before the next.
pub(in crate::made::zerotrie_build) fn is_ordered<'a, K: ZeroTrieWithOptions, I: IndexedItems<'a>>(items: I) -> bool {
    first_unordered::<K, I>(items).is_none()
}

/// Returns whether all bytes of a key are bytes of the kind: ASCII, or any if the kind has spans.
pub(in crate::made::zerotrie_build) fn is_key<K: ZeroTrieWithOptions>(key: &[u8]) -> bool {
    // That the key was read shows the proof that its bytes are below 256.
    let _first = key.first();
    K::SPANS || key.is_ascii()
}

/// Returns the number of the first item whose key has a byte that is none of the kind's.
#[inline(always)]
pub(in crate::made::zerotrie_build) fn first_foreign<'a, K: ZeroTrieWithOptions, I: IndexedItems<'a>>(
    items: I,
) -> Option<usize> {
    for index in 0..items.len() {
        let (key, _) = items.get(index);
        if !is_key::<K>(key) {
            return Some(index);
        }
    }
    None
}

/// Returns whether all bytes of the keys are bytes of the kind.
pub(in crate::made::zerotrie_build) fn are_keys<'a, K: ZeroTrieWithOptions, I: IndexedItems<'a>>(items: I) -> bool {
    first_foreign::<K, I>(items).is_none()
}

/// Returns whether all keys of the kind are ASCII, as they must be if it has no spans.
pub(in crate::made::zerotrie_build) fn are_ascii<'a, K: ZeroTrieWithOptions, I: IndexedItems<'a>>(items: I) -> bool {
    !K::SPANS || are_keys::<Simple, I>(items)
}

/// Returns whether all bytes of a key are ASCII and their own folds in the kind, as all but
/// upper-case letters are.
fn is_folded<K: ZeroTrieWithOptions>(key: &[u8]) -> bool {
    for byte in key {
        if *byte >= 128 || byte.is_ascii_uppercase() {
            return false;
        }
    }
    true
}

/// Returns whether `is_folded` holds for every key.
fn are_folded<'a, K: ZeroTrieWithOptions, I: IndexedItems<'a>>(items: I) -> bool {
    for index in 0..items.len() {
        let (key, _) = items.get(index);
        if !is_folded::<K>(key) {
            return false;
        }
    }
    true
}

/// Returns whether items that ascend by the bytes of their keys are in the order of the kind too.
/// It is an error if a key has other bytes than the kind.
///
/// If case is ignored and there are no upper-case letters, one look at each byte shows it.
pub(in crate::made::zerotrie_build) fn are_in_order<'a, K: ZeroTrieWithOptions, I: IndexedItems<'a>>(
    items: I,
) -> Result<bool, ZeroTrieBuildError> {
    if K::IGNORE_CASE && are_folded::<K, I>(items) {
        return Ok(true);
    }
    if !are_keys::<K, _>(items) {
        return Err(ZeroTrieBuildError::NonAsciiError);
    }
    Ok(!K::IGNORE_CASE || is_ordered::<K, _>(items))
}

/// Returns whether some key is beside itself.
pub(in crate::made::zerotrie_build) fn repeats_next(items: &[(&[u8], usize)]) -> bool {
    !items.is_sorted_by(|a, b| a.0 != b.0)
}
