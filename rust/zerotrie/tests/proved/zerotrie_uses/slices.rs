// Made from crates/zerotrie_uses/src/slices.rt by rust/make: edit that.
//! Look-ups in an index that is read at places, here in the bytes of a slice.

use crate::rstd::prelude::*;
use crate::rstd::alloc::{AllocError, Global};
use crate::zerotrie_index::laws::has_its_blocks;
use crate::zerotrie_index::{ReadAt, SealedIndex, get_at};
use crate::zerotrie_sealed::SealError;
use crate::zerotrie_sealed::laws::index_is_behind;

/// Why nothing is found in a slice.
#[derive(Clone, Copy, PartialEq, Eq, Debug)]
pub enum SliceError {
    /// A read ends behind the slice.
    Ended,
    /// The slice is no index that is sealed in blocks.
    NotSealed(SealError),
    /// An allocation failed.
    OutOfMemory,
}

impl From<AllocError> for SliceError {
    fn from(_: AllocError) -> Self {
        SliceError::OutOfMemory
    }
}

impl From<SealError> for SliceError {
    fn from(why: SealError) -> Self {
        SliceError::NotSealed(why)
    }
}

/// A slice that is read at places: its bytes are known, and a read fails only behind them.
pub struct Slice<'a> {
    bytes: &'a [u8],
}

impl<'a> ReadAt for Slice<'a> {
    type Error = SliceError;

    fn fill(&mut self, place: u64, room: &mut [u8]) -> Result<(), SliceError> {
        let Ok(start) = usize::try_from(place) else {
            return Err(SliceError::Ended);
        };
        let Some((_, behind)) = self.bytes.split_at_checked(start) else {
            return Err(SliceError::Ended);
        };
        let Some((part, _)) = behind.split_at_checked(room.len()) else {
            return Err(SliceError::Ended);
        };
        room.copy_from_slice(part);
        Ok(())
    }
}

/// Returns the value of a key in an index, as `get` does, and reads few of its bytes. Of an index it
/// fails only if memory does.
pub fn value_at_places(alloc: Global, index: &[u8], key: &[u8]) -> Result<Option<usize>, SliceError> {
    get_at(alloc, &mut Slice { bytes: index }, key)
}

/// Returns the value of a key in a file that is sealed in blocks, and tests the blocks that it reads. Of
/// a right file it fails only if memory does.
pub fn value_in_file(alloc: Global, file: &[u8], key: &[u8]) -> Result<Option<usize>, SliceError> {
    has_its_blocks();
    index_is_behind();
    let mut index = SealedIndex::open(alloc, Slice { bytes: file })?;
    get_at(alloc, &mut index, key)
}
