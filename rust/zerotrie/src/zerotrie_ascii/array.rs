// Made from crates/zerotrie_ascii/src/array.rt by rust/make: edit that.
//! Tries that are built in arrays.

use crate::rstd::prelude::*;
use crate::zerotrie_ascii::trie::{AsciiKind, AsciiTrie};
use crate::rstd::alloc::Global;
use crate::zerotrie_build::{ByteSliceWithIndices, bytes_within_as, fill_from_end_as};
use crate::zerotrie_core::{ZeroTrieBuildError, laws};

impl<K: AsciiKind, const N: usize> AsciiTrie<K, [u8; N]> {
    /// Builds the trie of a slice in an array of exactly its length:
    /// `from_sorted_u8_tuples_with_stack` with a stack of 100.
    pub fn from_sorted_u8_tuples(items: &[(&[u8], usize)]) -> Result<Self, ZeroTrieBuildError> {
        Self::from_sorted_u8_tuples_with_stack::<100>(items)
    }

    /// Builds the trie of a slice, whose keys must ascend strictly by their bytes, in an array of
    /// exactly its length, which `encoded_len` returns. The stack has room for `STACK` finished
    /// subtries that wait for their branch. `STACK` must be below 2^58. Does not allocate.
    ///
    /// ```
    /// # use zerotrie::{rstd::examples::*, zerotrie_ascii::*, zerotrie_core::*, zerotrie_build::*, zerotrie_any::*};
    /// let items: [(&[u8], usize); 2] = [(b"ad", 22), (b"adef", 33)];
    /// let trie: ZeroTrieSimpleAscii<[u8; 8]> =
    ///     ZeroTrieSimpleAscii::from_sorted_u8_tuples_with_stack::<0>(&items)?;
    /// assert_eq!(trie.get(b"adef"), Some(33));
    /// # Ok::<(), Fail>(())
    /// ```
    ///
    /// The keys of a `ZeroAsciiIgnoreCaseTrie` must ascend in lower case instead, as nothing is
    /// sorted here.
    ///
    /// ```
    /// # use zerotrie::{rstd::examples::*, zerotrie_ascii::*, zerotrie_core::*, zerotrie_build::*, zerotrie_any::*};
    /// let items: [(&[u8], usize); 3] = [(b"Accept", 1), (b"Accept-CH", 2), (b"dnt", 3)];
    /// let trie: ZeroAsciiIgnoreCaseTrie<[u8; 17]> =
    ///     ZeroAsciiIgnoreCaseTrie::from_sorted_u8_tuples_with_stack::<2>(&items)?;
    /// assert_eq!(trie.get(b"DNT"), Some(3));
    /// # Ok::<(), Fail>(())
    /// ```
    ///
    /// Errors: `Unsorted`, `NonAsciiError`, `CapacityExceeded`, `BufferTooSmall`, `BufferTooLarge`,
    /// `StackExceeded`, and without case `MixedCase`; see `ZeroTrieBuildError`. Without such a
    /// cause it returns the trie.
    pub fn from_sorted_u8_tuples_with_stack<const STACK: usize>(
        items: &[(&[u8], usize)],
    ) -> Result<Self, ZeroTrieBuildError> {
        fill::<K, N, STACK>(ByteSliceWithIndices::from_byte_slice(items))
    }

    /// Builds the trie of a slice, as `from_sorted_u8_tuples` does, for `str` keys.
    pub fn from_sorted_str_tuples(items: &[(&str, usize)]) -> Result<Self, ZeroTrieBuildError> {
        Self::from_sorted_str_tuples_with_stack::<100>(items)
    }

    /// Builds the trie of a slice, as `from_sorted_u8_tuples_with_stack` does, for `str` keys.
    pub fn from_sorted_str_tuples_with_stack<const STACK: usize>(
        items: &[(&str, usize)],
    ) -> Result<Self, ZeroTrieBuildError> {
        fill::<K, N, STACK>(ByteSliceWithIndices::from_str_slice(items))
    }
}

impl<K: AsciiKind> AsciiTrie<K, Vec<u8>> {
    /// Builds the trie of a slice, of at most 10,000 bytes and with a stack of 100:
    /// `try_from_sorted_slice_sized` with these numbers.
    pub fn try_from_sorted_slice_with_const_builder(
        alloc: Global,
        items: &[(&[u8], usize)],
    ) -> Result<Self, ZeroTrieBuildError> {
        Self::try_from_sorted_slice_sized::<10000, 100>(alloc, items)
    }

    /// Builds the trie of a slice, whose keys must ascend strictly by their bytes, or in lower case
    /// in the kind that ignores case. It may have at most `N` bytes; as many as it has are
    /// allocated. The stack has room for `STACK` finished subtries that wait for their branch.
    /// `STACK` must be below 2^58.
    ///
    /// ```
    /// # use zerotrie::{rstd::examples::*, zerotrie_ascii::*, zerotrie_core::*, zerotrie_build::*, zerotrie_any::*};
    /// let items: [(&[u8], usize); 2] = [(b"ad", 22), (b"adef", 33)];
    /// let trie = ZeroTrieSimpleAscii::try_from_sorted_slice_sized::<20, 0>(Global, &items)?;
    /// assert_eq!(trie.byte_len(), 8);
    /// # Ok::<(), Fail>(())
    /// ```
    ///
    /// Errors: `Unsorted`, `NonAsciiError`, `CapacityExceeded`, `BufferTooSmall`, `StackExceeded`,
    /// `OutOfMemory`, and without case `MixedCase`; see `ZeroTrieBuildError`.
    pub fn try_from_sorted_slice_sized<const N: usize, const STACK: usize>(
        alloc: Global,
        items: &[(&[u8], usize)],
    ) -> Result<Self, ZeroTrieBuildError> {
        let items = ByteSliceWithIndices::from_byte_slice(items);
        let store = bytes_within_as::<K, STACK>(alloc, N, items)?;
        Ok(AsciiTrie::from_store(store))
    }
}

/// Builds the trie of the items in an array of exactly its length.
fn fill<K: AsciiKind, const N: usize, const STACK: usize>(
    items: ByteSliceWithIndices<'_>,
) -> Result<AsciiTrie<K, [u8; N]>, ZeroTrieBuildError> {
    laws::length_is_size();
    let mut bytes = [0; N];
    let start = fill_from_end_as::<K, STACK>(&mut bytes, items)?;
    if start > 0 {
        return Err(ZeroTrieBuildError::BufferTooLarge(N - start));
    }
    Ok(AsciiTrie::from_store(bytes))
}
