// Made from crates/zerotrie_core/src/plain/nodes.rt by rust/make: edit that.
//! Writes single nodes.

use crate::rstd::prelude::*;
use crate::zerotrie_base::{ZeroTrieBuildError, least_width, write_varint_meta2, write_varint_meta3};

/// Writes a number, with these bits added to its lead byte.
fn push_number(out: &mut Vec<u8>, bits: u8, number: &[u8]) -> Result<(), ZeroTrieBuildError> {
    if let Some((lead, trail)) = number.split_first() {
        out.push(bits + *lead)?;
        out.extend_from_slice(trail)?;
    }
    Ok(())
}

pub(super) fn push_value(out: &mut Vec<u8>, value: usize) -> Result<(), ZeroTrieBuildError> {
    push_number(out, 0x80, &write_varint_meta3(value))
}

/// Writes one byte of each offset; `place` counts from the lowest byte.
fn push_block(out: &mut Vec<u8>, offsets: &[usize], place: usize) -> Result<(), ZeroTrieBuildError> {
    for offset in offsets {
        out.push(((offset >> (8 * place)) % 256) as u8)?;
    }
    Ok(())
}

/// Writes the lowest bytes of the offsets in blocks, the highest block first.
fn push_offsets(
    out: &mut Vec<u8>,
    offsets: &[usize],
    bytes: usize,
) -> Result<(), ZeroTrieBuildError> {
    for place in (0..bytes).rev() {
        push_block(out, offsets, place)?;
    }
    Ok(())
}

/// Returns the width field for targets of this many bytes in total, if the kind has it.
fn width_of(total: usize) -> Option<usize> {
    let width = least_width(total);
    (width <= 3).then_some(width)
}

pub(super) fn push_branch(
    out: &mut Vec<u8>,
    edges: &[u8],
    offsets: &[usize],
    targets: &[u8],
) -> Result<(), ZeroTrieBuildError> {
    let width = width_of(targets.len()).ok_or(ZeroTrieBuildError::CapacityExceeded)?;
    push_number(
        out,
        0xC0,
        &write_varint_meta2(256 * width + edges.len() % 256),
    )?;
    out.extend_from_slice(edges)?;
    push_offsets(out, offsets, width + 1)?;
    out.extend_from_slice(targets)?;
    Ok(())
}
