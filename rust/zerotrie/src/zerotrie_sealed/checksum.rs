// Made from crates/zerotrie_sealed/src/checksum.rt by rust/make: edit that.
//! CRC-32C of bytes, sixteen at a time.

use crate::zerotrie_sealed::tables::POWERS;

/// Returns the CRC-32C of the bytes, which is also called Castagnoli's.
///
/// ```
/// # use zerotrie::{rstd::examples::*, zerotrie_sealed::*, zerotrie_base::*};
/// assert_eq!(crc32c(b"123456789"), 0xE306_9283);
/// assert_eq!(crc32c(&[0; 32]), 0x8A91_36AA);
/// assert_eq!(crc32c(&[0xFF; 32]), 0x62A8_AB43);
/// # Ok::<(), Fail>(())
/// ```
pub fn crc32c(bytes: &[u8]) -> u32 {
    after(u32::MAX, bytes) ^ u32::MAX
}

/// Returns the CRC-32C of bytes in two parts, one after the other.
pub(in crate::made::zerotrie_sealed) fn crc32c_of_both(front: &[u8], behind: &[u8]) -> u32 {
    after(after(u32::MAX, front), behind) ^ u32::MAX
}

/// Returns the remainder after these bytes.
fn after(start: u32, bytes: &[u8]) -> u32 {
    let (chunks, rest) = whole_chunks(start, bytes);
    let mut remainder = chunks;
    for byte in rest {
        remainder = power(0, remainder ^ u32::from(*byte)) ^ (remainder >> 8);
    }
    remainder
}

/// Returns the remainder after the chunks of sixteen bytes, and the bytes behind them.
fn whole_chunks(start: u32, bytes: &[u8]) -> (u32, &[u8]) {
    let mut remainder = start;
    let mut rest = bytes;
    while let Some((chunk, behind)) = rest.split_first_chunk::<16>() {
        remainder = after_chunk(remainder, chunk);
        rest = behind;
    }
    (remainder, rest)
}

/// Returns the remainder after sixteen bytes.
///
/// Only the first word waits for the remainder before it, so its part is added last.
#[inline(always)]
fn after_chunk(remainder: u32, chunk: &[u8; 16]) -> u32 {
    let behind = word_powers(8, word_at(chunk, 4))
        ^ (word_powers(4, word_at(chunk, 8)) ^ word_powers(0, word_at(chunk, 12)));
    word_powers(12, remainder ^ word_at(chunk, 0)) ^ behind
}

/// Returns the number in the four bytes at `place`, the lowest first.
#[inline(always)]
fn word_at(chunk: &[u8; 16], place: usize) -> u32 {
    u32::from_le_bytes([
        chunk[place],
        chunk[place + 1],
        chunk[place + 2],
        chunk[place + 3],
    ])
}

/// Returns the word times x^(8 (place + 4)).
#[inline(always)]
fn word_powers(place: usize, word: u32) -> u32 {
    (power(place + 3, word) ^ power(place + 2, word >> 8))
        ^ (power(place + 1, word >> 16) ^ power(place, word >> 24))
}

/// Returns the lowest byte of a word times x^(8 (place + 1)).
#[inline(always)]
fn power(place: usize, word: u32) -> u32 {
    powers()[256 * place + (word % 256) as usize]
}

/// Returns the table of the bytes times x^(8 (k + 1)), where b stands at 256 k + b.
#[inline(always)]
fn powers() -> &'static [u32] {
    &POWERS
}
