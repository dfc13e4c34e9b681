// Made from crates/zerotrie_lines/src/plain.rt by rust/make: edit that.
//! Characters that need no escape, and ASCII bytes that need none, many compared at once.

use crate::rstd::simd::prelude::*;

/// Returns whether a byte is ASCII and needs no escape.
fn is_plain(byte: u8) -> bool {
    byte >= 32 && byte < 127 && byte != b'\\'
}

/// Returns whether a byte is one of a character in UTF-8 behind its first.
fn is_trail(byte: u8) -> bool {
    byte >= 128 && byte < 192
}

/// Returns whether two bytes are a character that needs no escape.
fn are_two(a: u8, b: u8) -> bool {
    (a >= 194 && a < 224) && (is_trail(b) && !(a == 194 && b < 160))
}

/// Returns whether three bytes are a character that is not seen, or changes the order of others.
fn are_unseen(a: u8, b: u8, c: u8) -> bool {
    let is_mark = a == 0xEF && b == 0xBB && c == 0xBF;
    let turns = b == 128 && (c >= 170 && c < 175) || b == 129 && (c >= 166 && c < 170);
    is_mark || a == 226 && turns
}

/// Returns whether three bytes are a character that needs no escape.
fn are_three(a: u8, b: u8, c: u8) -> bool {
    let is_long = !(a == 224 && b < 160);
    let is_scalar = !(a == 237 && b >= 160);
    (a >= 224 && a < 240)
        && (is_trail(b) && (is_trail(c) && (is_long && (is_scalar && !are_unseen(a, b, c)))))
}

/// Returns whether four bytes are a character that needs no escape.
fn are_four(a: u8, b: u8, c: u8, d: u8) -> bool {
    let is_long = !(a == 240 && b < 144);
    let is_scalar = !(a == 244 && b >= 144);
    (a >= 240 && a < 245)
        && (is_trail(b) && (is_trail(c) && (is_trail(d) && (is_long && is_scalar))))
}

/// Returns how many bytes at the front are a character that needs no escape. 0 if they have none.
pub(in crate::zerotrie_lines) fn shown_len(bytes: &[u8]) -> usize {
    match bytes {
        [a, ..] if is_plain(*a) => 1,
        [a, b, ..] if are_two(*a, *b) => 2,
        [a, b, c, ..] if are_three(*a, *b, *c) => 3,
        [a, b, c, d, ..] if are_four(*a, *b, *c, *d) => 4,
        _ => 0,
    }
}

/// Returns whether the first sixteen bytes are ASCII and need no escape.
#[inline(always)]
fn are_plain_in_16(bytes: &[u8]) -> bool {
    let lanes = u8x16::from_slice(bytes);
    let low = lanes.simd_lt(u8x16::splat(32)).to_bitmask();
    let high = lanes.simd_ge(u8x16::splat(127)).to_bitmask();
    let slashes = lanes.simd_eq(u8x16::splat(b'\\')).to_bitmask();
    (low == 0) & (high == 0) & (slashes == 0)
}

/// Returns whether the first eight bytes are ASCII and need no escape.
#[inline(always)]
fn are_plain_in_8(bytes: &[u8]) -> bool {
    let lanes = u8x8::from_slice(bytes);
    let low = lanes.simd_lt(u8x8::splat(32)).to_bitmask();
    let high = lanes.simd_ge(u8x8::splat(127)).to_bitmask();
    let slashes = lanes.simd_eq(u8x8::splat(b'\\')).to_bitmask();
    (low == 0) & (high == 0) & (slashes == 0)
}

/// Returns whether fewer than sixteen bytes are ASCII and need no escape. Of eight or more it
/// compares the first eight and the last eight.
#[inline(always)]
fn are_few_plain(bytes: &[u8]) -> bool {
    if bytes.len() >= 8 {
        let (_, last) = bytes.split_at(bytes.len() - 8);
        return are_plain_in_8(bytes) & are_plain_in_8(last);
    }
    let mut plain = true;
    for byte in bytes {
        plain &= is_plain(*byte);
    }
    plain
}

/// Returns whether all bytes are ASCII and need no escape. It compares all of them, which is faster
/// than to stop at the first that does.
pub(in crate::zerotrie_lines) fn are_plain(key: &[u8]) -> bool {
    let mut rest = key;
    let mut plain = true;
    while rest.len() >= 16 {
        plain &= are_plain_in_16(rest);
        let (_, left) = rest.split_at(16);
        rest = left;
    }
    plain & are_few_plain(rest)
}
