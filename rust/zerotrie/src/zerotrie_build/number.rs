// Made from crates/zerotrie_build/src/number.rt by rust/make: edit that.
//! The numbers that nodes begin with: their bytes and their lengths.

use crate::rstd::arrayvec::ArrayVec;
use crate::zerotrie_base::{write_varint_meta2, write_varint_meta3};

/// The bits of the lead of a value node.
pub(in crate::made::zerotrie_build) const VALUE: u8 = 0b1000_0000;

/// The bits of the lead of a span.
pub(in crate::made::zerotrie_build) const SPAN: u8 = 0b1010_0000;

/// The bits of the lead of a branch.
pub(in crate::made::zerotrie_build) const BRANCH: u8 = 0b1100_0000;

/// Returns the bytes of a number in the form whose shortest number of two bytes is `latent`. Its
/// lead has no bits besides.
fn plain_bytes(latent: u8, number: usize) -> ArrayVec<u8, 10> {
    if latent == 16 {
        write_varint_meta3(number)
    } else {
        write_varint_meta2(number)
    }
}

/// Returns the bytes of a number in the form whose shortest number of two bytes is `latent`, with
/// these bits in its lead.
pub(in crate::made::zerotrie_build) fn number_bytes(bits: u8, latent: u8, number: usize) -> ArrayVec<u8, 10> {
    let mut bytes = plain_bytes(latent, number);
    bytes.as_mut_slice()[0] += bits;
    bytes
}

/// Returns how many bytes a number has in the form whose shortest number of two bytes is `latent`.
pub(in crate::made::zerotrie_build) fn number_len(latent: usize, number: usize) -> usize {
    let mut len = 1;
    let mut rest = number;
    while rest >= latent {
        rest = (rest - latent) / 128;
        len += 1;
    }
    len
}
