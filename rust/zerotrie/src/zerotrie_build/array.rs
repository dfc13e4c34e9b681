// Made from crates/zerotrie_build/src/array.rt by rust/make: edit that.
//! The array builder, which writes a text from its end.

mod fill;
mod text;
mod walk;

use crate::zerotrie_build::items::ByteSliceWithIndices;
pub use fill::{bytes_within, bytes_within_as, fill_from_end, fill_from_end_as};
use crate::zerotrie_base::{Simple, ZeroTrieBuildError, ZeroTrieWithOptions};

/// A builder of a trie over ASCII keys in an array of `N` bytes, which it fills from the end. It
/// does not allocate.
///
/// ```
/// # use zerotrie::{rstd::examples::*, zerotrie_build::*, zerotrie_base::*};
/// let items = [("ad", 22), ("adef", 33)];
/// let items = ByteSliceWithIndices::from_str_slice(&items);
/// let builder = ZeroTrieBuilderConst::<8>::from_tuple_slice(items)?;
/// assert_eq!(builder.build()?.as_slice(), b"ad\x90\x06ef\x90\x11".as_slice());
/// # Ok::<(), Fail>(())
/// ```
#[derive(Debug)]
pub struct ZeroTrieBuilderConst<const N: usize> {
    data: [u8; N],
    start: usize,
}

impl<const N: usize> ZeroTrieBuilderConst<N> {
    /// Builds the trie of the items, whose keys ascend strictly by their bytes, with a stack of
    /// 100.
    ///
    /// It is `from_tuple_slice_with_stack` with room for 100 targets that wait for their branch,
    /// and has the same errors.
    pub fn from_tuple_slice(items: ByteSliceWithIndices<'_>) -> Result<Self, ZeroTrieBuildError> {
        Self::from_tuple_slice_with_stack::<100>(items)
    }

    /// Builds the trie of the items, whose keys ascend strictly by their bytes, with a stack of
    /// `K`. The bytes are the one text of the map of the items, and need not fill the array. It
    /// does not allocate. `K` has to be below 2^58, as a stack that fits a machine is.
    ///
    /// It is `fill_from_end` over an array, which says how large the stack has to be, and has the
    /// same errors.
    pub fn from_tuple_slice_with_stack<const K: usize>(
        items: ByteSliceWithIndices<'_>,
    ) -> Result<Self, ZeroTrieBuildError> {
        Self::from_tuple_slice_as::<Simple, K>(items)
    }

    /// Builds the trie of the items in a kind over ASCII keys: `Simple`, or `Ignore`, whose items
    /// ascend strictly by the bytes of their keys in lower case.
    ///
    /// It is `fill_from_end_as` over an array, with the same errors.
    pub fn from_tuple_slice_as<K: ZeroTrieWithOptions, const STACK: usize>(
        items: ByteSliceWithIndices<'_>,
    ) -> Result<Self, ZeroTrieBuildError> {
        let mut data = [0; N];
        let start = fill_from_end_as::<K, STACK>(&mut data, items)?;
        Ok(ZeroTrieBuilderConst { data, start })
    }

    /// Returns the bytes of the trie, which may be fewer than the array has.
    pub fn as_bytes(&self) -> &[u8] {
        let all = &self.data[..];
        &all[self.start..]
    }

    /// Returns the array, which the bytes of the trie have to fill.
    ///
    /// It returns `BufferTooLarge`, which has their number, exactly if they are fewer.
    pub fn build(self) -> Result<[u8; N], ZeroTrieBuildError> {
        if self.start > 0 {
            return Err(ZeroTrieBuildError::BufferTooLarge(N - self.start));
        }
        Ok(self.data)
    }
}
