// Made from crates/zerotrie_core/src/simd/lanes.rt by rust/make: edit that.
//! Compares many bytes at once.

use crate::rstd::simd::prelude::*;

/// Returns the first place of one of two bytes among sixteen; 64 if there is none.
#[inline(always)]
pub(in crate::made::zerotrie_core) fn first_in_16(bytes: &[u8], one: u8, other: u8) -> usize {
    let lanes = u8x16::from_slice(bytes);
    let ones = lanes.simd_eq(u8x16::splat(one)).to_bitmask();
    let others = lanes.simd_eq(u8x16::splat(other)).to_bitmask();
    (ones | others).trailing_zeros() as usize
}

/// Like `first_in_16`, among 32.
#[inline(always)]
pub(in crate::made::zerotrie_core) fn first_in_32(bytes: &[u8], one: u8, other: u8) -> usize {
    let lanes = u8x32::from_slice(bytes);
    let ones = lanes.simd_eq(u8x32::splat(one)).to_bitmask();
    let others = lanes.simd_eq(u8x32::splat(other)).to_bitmask();
    (ones | others).trailing_zeros() as usize
}

/// Like `first_in_16`, among 64.
#[inline(always)]
pub(in crate::made::zerotrie_core) fn first_in_64(bytes: &[u8], one: u8, other: u8) -> usize {
    let lanes = u8x64::from_slice(bytes);
    let ones = lanes.simd_eq(u8x64::splat(one)).to_bitmask();
    let others = lanes.simd_eq(u8x64::splat(other)).to_bitmask();
    (ones | others).trailing_zeros() as usize
}

/// Returns the first of sixteen places where a byte is not a literal or differs from the other byte
/// there; 64 if there is none.
#[inline(always)]
pub(in crate::made::zerotrie_core) fn first_other_in_16(bytes: &[u8], others: &[u8]) -> usize {
    let lanes = u8x16::from_slice(bytes);
    let differ = lanes.simd_ne(u8x16::from_slice(others)).to_bitmask();
    let high = lanes.simd_ge(u8x16::splat(128)).to_bitmask();
    (differ | high).trailing_zeros() as usize
}

/// Returns whether sixteen bytes are literals and equal the other bytes.
#[inline(always)]
pub(in crate::made::zerotrie_core) fn are_same_in_16(bytes: &[u8], others: &[u8]) -> bool {
    first_other_in_16(bytes, others) >= 16
}

/// Returns how many of the first sixteen bytes in a row are below the next one; 64 if all are.
#[inline(always)]
pub(in crate::made::zerotrie_core) fn rising_in_17(bytes: &[u8]) -> usize {
    let (_, next) = bytes.split_at(1);
    let lanes = u8x16::from_slice(bytes);
    let stops = lanes.simd_ge(u8x16::from_slice(next)).to_bitmask();
    stops.trailing_zeros() as usize
}

/// Returns how many of the first sixteen bytes in a row are 128 or more; 64 if all are.
#[inline(always)]
pub(in crate::made::zerotrie_core) fn highs_in_16(bytes: &[u8]) -> usize {
    let lanes = u8x16::from_slice(bytes);
    let stops = lanes.simd_lt(u8x16::splat(128)).to_bitmask();
    stops.trailing_zeros() as usize
}
