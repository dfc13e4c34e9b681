// Made from crates/zerotrie_search/src/sorted/path.rt by rust/make: edit that.
//! A path down a trie: a key, and the place before each of its bytes.

use crate::rstd::prelude::*;
use crate::zerotrie_search::sorted::edges::step_exact;
use crate::rstd::alloc::{AllocError, Allocator};
use crate::zerotrie_core::{CursorPlace, ZeroTrieBuilderOptions};

/// Adds a byte to a path, and the place before it.
fn push<A: Allocator>(
    key: &mut Vec<u8, A>,
    places: &mut Vec<CursorPlace, A>,
    here: &mut CursorPlace,
    byte: u8,
    after: CursorPlace,
) -> Result<(), AllocError> {
    key.push(byte)?;
    places.push(*here)?;
    *here = after;
    Ok(())
}

/// Goes down along a key as far as the trie has its bytes. Returns the first byte that it does not
/// have, or `None` if it has all.
pub(in crate::made::zerotrie_search) fn follow<A: Allocator>(
    options: ZeroTrieBuilderOptions,
    bytes: &[u8],
    sought: &[u8],
    key: &mut Vec<u8, A>,
    places: &mut Vec<CursorPlace, A>,
    here: &mut CursorPlace,
) -> Result<Option<usize>, AllocError> {
    for byte in sought {
        let Some(after) = step_exact(options, bytes, *here, *byte) else {
            return Ok(Some(*byte as usize));
        };
        push(key, places, here, *byte, after)?;
    }
    Ok(None)
}
