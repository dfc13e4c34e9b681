// Made from crates/zerotrie_lines/src/copies.rt by rust/make: edit that.
//! Short bytes, copied as two parts of fixed length, which needs no call.

use crate::rstd::prelude::*;
use crate::rstd::alloc::AllocError;

/// Adds `N` to `2 * N` bytes: the first `N` of them, and over these the last `N`.
#[inline(always)]
fn push_parts<const N: usize>(output: &mut Vec<u8>, bytes: &[u8]) -> Result<(), AllocError> {
    let (first, _) = bytes.split_at(N);
    let (front, last) = bytes.split_at(bytes.len() - N);
    let end = output.len() + front.len();
    output.extend_from_slice(first)?;
    output.truncate(end);
    output.extend_from_slice(last)
}

/// Adds bytes. Four to sixteen, as most keys and numbers have, are copied without a call.
#[inline(always)]
pub(in crate::zerotrie_lines) fn push_bytes(output: &mut Vec<u8>, bytes: &[u8]) -> Result<(), AllocError> {
    match bytes.len() {
        8..=16 => push_parts::<8>(output, bytes),
        4..=7 => push_parts::<4>(output, bytes),
        _ => output.extend_from_slice(bytes),
    }
}
