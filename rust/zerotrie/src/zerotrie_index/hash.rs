// Made from crates/zerotrie_index/src/hash.rt by rust/make: edit that.
//! The hash of a key, on which the bytes of an index depend.

/// The first 64 bits of the fraction of pi.
const PI: u64 = 0x243F_6A88_85A3_08D3;

/// The first 64 bits of the fraction of the golden ratio.
pub(in crate::made::zerotrie_index) const GOLDEN: u64 = 0x9E37_79B9_7F4A_7C15;

/// Returns the two halves of a product of 128 bits, joined by exclusive or.
#[inline(always)]
fn fold(a: u64, b: u64) -> u64 {
    let product = u128::from(a) * u128::from(b);
    (product % (1 << 64)) as u64 ^ (product >> 64) as u64
}

/// Returns the number in the eight bytes from a place on, the lowest first.
#[inline(always)]
pub(in crate::made::zerotrie_index) fn eight_at(bytes: &[u8], place: usize) -> u64 {
    match bytes[place..].first_chunk::<8>() {
        Some(eight) => u64::from_le_bytes(*eight),
        None => 0,
    }
}

/// Returns the number in the four bytes from a place on, the lowest first.
#[inline(always)]
fn four_at(bytes: &[u8], place: usize) -> u64 {
    match bytes[place..].first_chunk::<4>() {
        Some(four) => u64::from(u32::from_le_bytes(*four)),
        None => 0,
    }
}

/// Returns a byte, or 0 after the end.
#[inline(always)]
fn byte_at(bytes: &[u8], place: usize) -> u64 {
    match bytes.get(place) {
        Some(byte) => u64::from(*byte),
        None => 0,
    }
}

/// Returns the number in fewer than eight bytes, the lowest first. Does not loop over them.
#[inline(always)]
fn whole(bytes: &[u8]) -> u64 {
    let len = bytes.len();
    if len < 4 {
        return byte_at(bytes, 0) + (byte_at(bytes, 1) << 8) + (byte_at(bytes, 2) << 16);
    }
    let behind = four_at(bytes, len - 4) >> (64 - 8 * len);
    four_at(bytes, 0) + (behind << 32)
}

/// Returns the state after all blocks of sixteen bytes that more bytes follow.
#[inline(always)]
fn after_blocks(factor: u64, start: u64, key: &[u8]) -> u64 {
    let mut state = start;
    let mut rest = key;
    while rest.len() > 16 {
        state = fold(eight_at(rest, 0) ^ state, eight_at(rest, 8) ^ factor);
        let (_, behind) = rest.split_at(16);
        rest = behind;
    }
    state
}

/// Returns the hash of a key under a seed.
///
/// ```
/// # use zerotrie::{rstd::examples::*, zerotrie_index::*, zerotrie_base::*, zerotrie_core::*, zerotrie_sealed::*};
/// assert_eq!(hash_of(0, b"adef"), 0x4378_AF77_1912_CE2E);
/// assert_eq!(hash_of(1, b"https://example.org/"), 0x32EE_CB06_5348_F7EA);
/// # Ok::<(), Fail>(())
/// ```
#[inline(always)]
pub fn hash_of(seed: u64, key: &[u8]) -> u64 {
    let len = key.len();
    let start = seed ^ PI;
    let factor = seed.rotate_left(32) ^ GOLDEN ^ len as u64;
    if len < 8 {
        let key = whole(key);
        return fold(key ^ start, key ^ factor);
    }
    let state = after_blocks(factor, start, key);
    let (first, last) = (
        eight_at(key, len.saturating_sub(16)),
        eight_at(key, len - 8),
    );
    fold(first ^ state, last ^ factor)
}
