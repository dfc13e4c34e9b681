// Made from crates/zerotrie_any/src/routes.rt by rust/make: edit that.
//! Builds the bytes of a trie of any kind.

use crate::rstd::prelude::*;
use crate::rstd::alloc::{AllocError, Global};
use crate::rstd::collections::{BTreeMap, VecDeque};
use crate::zerotrie_build::{ByteSliceWithIndices, build_ascending, build_given};
use crate::zerotrie_core::{TrieKey, ZeroTrieBuildError, ZeroTrieWithOptions};

/// Builds the bytes of the trie of a slice, whose keys must ascend strictly by their bytes, also if
/// case is ignored. An empty slice gives no bytes.
///
/// ```
/// # use zerotrie::{rstd::examples::*, zerotrie_any::*, zerotrie_base::*, zerotrie_core::*, zerotrie_build::*};
/// let bytes = bytes_from_slice::<Simple>(Global, &[(b"ad", 22), (b"adef", 33)])?;
/// assert_eq!(bytes.as_slice(), b"ad\x90\x06ef\x90\x11".as_slice());
/// # Ok::<(), Fail>(())
/// ```
///
/// In the kinds over ASCII keys they are the one encoding of the map.
///
/// Errors: `Unsorted`, `CapacityExceeded`, `OutOfMemory`; over ASCII keys `NonAsciiError`; if case
/// is ignored `MixedCase`; in the hashed kinds `CouldNotSolvePerfectHash`. See
/// `ZeroTrieBuildError`.
pub fn bytes_from_slice<K: ZeroTrieWithOptions>(
    alloc: Global,
    items: &[(&[u8], usize)],
) -> Result<Vec<u8>, ZeroTrieBuildError> {
    if !ByteSliceWithIndices::from_byte_slice(items).is_sorted() {
        return Err(ZeroTrieBuildError::Unsorted);
    }
    let data: VecDeque<u8> = build_ascending::<K, _, _, Global>(alloc, alloc, items)?;
    Ok(data.into_vec())
}

/// Builds the bytes of the trie of a slice in any order. An empty slice gives no bytes. Copies the
/// items only if they must be sorted.
///
/// ```
/// # use zerotrie::{rstd::examples::*, zerotrie_any::*, zerotrie_base::*, zerotrie_core::*, zerotrie_build::*};
/// let bytes = bytes_from_unsorted_slice::<Simple>(Global, &[(b"adef", 33), (b"ad", 22)])?;
/// assert_eq!(bytes.as_slice(), b"ad\x90\x06ef\x90\x11".as_slice());
/// # Ok::<(), Fail>(())
/// ```
///
/// The errors are those of `bytes_from_iter`.
pub fn bytes_from_unsorted_slice<K: ZeroTrieWithOptions>(
    alloc: Global,
    items: &[(&[u8], usize)],
) -> Result<Vec<u8>, ZeroTrieBuildError> {
    let data: VecDeque<u8> = build_given::<K, _, _, Global>(alloc, alloc, items)?;
    Ok(data.into_vec())
}

/// Returns the entries of a map, each key as its bytes. Does not copy the keys.
pub(in crate::made::zerotrie_any) fn items_of<Key: TrieKey + Ord>(
    alloc: Global,
    entries: &BTreeMap<Key, usize>,
) -> Result<Vec<(&[u8], usize)>, AllocError> {
    let mut items = Vec::with_capacity(alloc, entries.len())?;
    for (key, value) in entries {
        items.push((key.key_bytes(), *value))?;
    }
    Ok(items)
}

/// Builds the bytes of the trie of a map. An empty map gives no bytes.
///
/// The errors are those of `bytes_from_slice`, but never `Unsorted` if the keys are ordered by
/// their bytes, as byte and string keys are.
pub fn bytes_from_map<K: ZeroTrieWithOptions, Key: TrieKey + Ord>(
    alloc: Global,
    entries: &BTreeMap<Key, usize>,
) -> Result<Vec<u8>, ZeroTrieBuildError> {
    let items = items_of(alloc, entries)?;
    bytes_from_slice::<K>(alloc, items.as_slice())
}

/// Builds the bytes of the trie of all pairs of an iterator, in any order. An empty iterator gives
/// no bytes.
///
/// ```
/// # use zerotrie::{rstd::examples::*, zerotrie_any::*, zerotrie_base::*, zerotrie_core::*, zerotrie_build::*};
/// let bytes = bytes_from_iter::<Simple, _, _>(Global, [("adef", 33), ("ad", 22)])?;
/// assert_eq!(bytes.as_slice(), b"ad\x90\x06ef\x90\x11".as_slice());
/// # Ok::<(), Fail>(())
/// ```
///
/// Errors: `DuplicateKey`, `CapacityExceeded`, `OutOfMemory`; over ASCII keys `NonAsciiError`; if
/// case is ignored `MixedCase`; in the hashed kinds `CouldNotSolvePerfectHash`. See
/// `ZeroTrieBuildError`.
pub fn bytes_from_iter<
    K: ZeroTrieWithOptions,
    Key: TrieKey,
    U: IntoIterator<Item = (Key, usize)>,
>(alloc: Global, iter: U) -> Result<Vec<u8>, ZeroTrieBuildError>
where
{
    let mut given: Vec<(Key, usize)> = iter.into_iter().collect_in(alloc)?;
    given.shrink_to_fit();
    let data: VecDeque<u8> = build_given::<K, _, _, Global>(alloc, alloc, given.as_slice())?;
    Ok(data.into_vec())
}
