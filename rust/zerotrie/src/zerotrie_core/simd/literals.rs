// Made from crates/zerotrie_core/src/simd/literals.rt by rust/make: edit that.
//! Compares runs of literals with a key, many bytes at a time.

use crate::zerotrie_core::simd::lanes::{are_same_in_16, first_other_in_16};
use crate::zerotrie_base::{ZeroTrieWithOptions, folded};

/// The length of the longest value in bytes.
const LONGEST_VALUE: usize = 10;

/// Returns the index of the first of sixteen bytes that is not a literal or differs from the key's
/// byte; 64 if there is none.
#[inline(always)]
fn first_other_at(bytes: &[u8], key: &[u8], place: usize) -> usize {
    let (_, rest) = bytes.split_at(place);
    let (_, after) = key.split_at(place);
    first_other_in_16(rest, after)
}

/// Like `common_literals` for long slices, sixteen bytes at a time. The last sixteen may overlap
/// those before them.
#[inline(always)]
fn common_by_sixteens<K: ZeroTrieWithOptions>(bytes: &[u8], key: &[u8]) -> usize {
    let most = bytes.len().min(key.len());
    let mut passed = 0;
    while most - passed >= 16 {
        let more = first_other_at(bytes, key, passed);
        if more < 16 {
            return passed + more;
        }
        passed += 16;
    }
    let last = most - 16;
    let more = first_other_at(bytes, key, last);
    if more < 16 { last + more } else { most }
}

/// Returns whether sixteen bytes from `place` on, or from `last` on if that is less, are literals
/// and equal the key's bytes.
#[inline(always)]
fn are_same_at(bytes: &[u8], key: &[u8], place: usize, last: usize) -> bool {
    let from = place.min(last);
    let (_, rest) = bytes.split_at(from);
    let (_, after) = key.split_at(from);
    are_same_in_16(rest, after)
}

/// Returns whether 48 bytes from `place` on, or as many as there are, are literals and equal the
/// key's bytes.
#[inline(always)]
fn are_48_same(bytes: &[u8], key: &[u8], place: usize, last: usize) -> bool {
    are_same_at(bytes, key, place, last)
        & are_same_at(bytes, key, place + 16, last)
        & are_same_at(bytes, key, place + 32, last)
}

/// Returns whether the bytes begin with the whole key as literals, in the same case.
///
/// Each round compares 96 bytes without a jump, since their number can't be predicted. If there are
/// fewer, the last sixteen are compared again.
#[inline(always)]
fn are_all_same(bytes: &[u8], key: &[u8]) -> bool {
    let last = key.len() - 16;
    let mut passed = 0;
    while passed < key.len() {
        let same = are_48_same(bytes, key, passed, last)
            & are_48_same(bytes, key, passed + 48, last);
        if !same {
            return false;
        }
        passed += 96;
    }
    true
}

/// Like `common_literals` for long slices.
///
/// If only a value can follow as many bytes as the key has, they usually end the key, and all of it
/// is compared at once. Not inlined: long runs are rare, and a look-up with this code would be too
/// large to be inlined itself.
fn common_in_long<K: ZeroTrieWithOptions>(bytes: &[u8], key: &[u8]) -> usize {
    if key.len() <= bytes.len()
        && bytes.len() - key.len() <= LONGEST_VALUE
        && are_all_same(bytes, key)
    {
        return key.len();
    }
    common_by_sixteens::<K>(bytes, key)
}

/// Like `common_literals`, one byte at a time.
#[inline(always)]
fn common_one_by_one<K: ZeroTrieWithOptions>(bytes: &[u8], key: &[u8]) -> usize {
    let most = bytes.len().min(key.len());
    let mut passed = 0;
    while passed < most
        && bytes[passed] < 128
        && folded::<K>(bytes[passed]) == folded::<K>(key[passed])
    {
        passed += 1;
    }
    passed
}

/// Returns a number of literals at the beginning of the bytes that match the key, not always all of
/// them.
///
/// Two long slices usually share a long run, so they are compared sixteen bytes at a time. That
/// comparison respects case. If case is ignored and the first bytes do not match, they are compared
/// one by one.
#[inline(always)]
pub(in crate::made::zerotrie_core) fn common_literals<K: ZeroTrieWithOptions>(bytes: &[u8], key: &[u8]) -> usize {
    if bytes.len() >= 16 && key.len() >= 16 {
        let more = common_in_long::<K>(bytes, key);
        if !K::IGNORE_CASE || more > 0 {
            return more;
        }
    }
    common_one_by_one::<K>(bytes, key)
}
