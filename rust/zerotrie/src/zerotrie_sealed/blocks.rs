// Made from crates/zerotrie_sealed/src/blocks.rt by rust/make: edit that.
//! The blocks of an index, each with its checksum.

use crate::rstd::prelude::*;
use crate::zerotrie_sealed::checksum::crc32c;
use crate::rstd::alloc::AllocError;

/// The number of bytes in a block of a sealed index. The last block may have fewer.
pub const BLOCK_LEN: usize = 1 << 16;

/// Returns the number of blocks of an index with as many bytes.
pub(in crate::made::zerotrie_sealed) fn block_count(len: usize) -> usize {
    len.div_ceil(BLOCK_LEN)
}

/// Returns the first block of the bytes, and what is behind it.
fn first_block(bytes: &[u8]) -> (&[u8], &[u8]) {
    bytes.split_at(BLOCK_LEN.min(bytes.len()))
}

/// Appends the checksum of each block of the bytes.
pub(in crate::made::zerotrie_sealed) fn add_sums(bytes: &[u8], sums: &mut Vec<u8>) -> Result<(), AllocError> {
    let mut rest = bytes;
    while !rest.is_empty() {
        let (block, behind) = first_block(rest);
        sums.extend_from_slice(&crc32c(block).to_le_bytes())?;
        rest = behind;
    }
    Ok(())
}

/// Returns what is behind the checksum of a block, if these bytes begin with it.
fn behind_sum<'a>(sums: &'a [u8], block: &[u8]) -> Option<&'a [u8]> {
    sums.strip_prefix(&crc32c(block).to_le_bytes())
}

/// Returns whether these are the checksums of all blocks of the bytes.
pub(in crate::made::zerotrie_sealed) fn are_sums(sums: &[u8], bytes: &[u8]) -> bool {
    let mut left = sums;
    let mut rest = bytes;
    while !rest.is_empty() {
        let (block, behind) = first_block(rest);
        let Some(more) = behind_sum(left, block) else {
            return false;
        };
        left = more;
        rest = behind;
    }
    left.is_empty()
}
