// Made from crates/zerotrie_build/src/array/fill.rt by rust/make: edit that.
//! Texts that are written from their end into a buffer, or into memory of their own.

use crate::rstd::prelude::*;
use crate::zerotrie_build::array::walk::build_text;
use crate::zerotrie_build::items::ByteSliceWithIndices;
use crate::zerotrie_build::order::{common_front_len, first_unordered};
use crate::rstd::alloc::Global;
use crate::zerotrie_base::{Simple, ZeroTrieBuildError, ZeroTrieWithOptions, folded, laws};

/// Writes the text of the trie of the items, whose keys ascend strictly by their bytes, at the end
/// of a buffer, with a stack of `K`, and returns where it begins. The bytes from there on are the
/// one text of the map of the items, and those before stay. After an error, any of the buffer's
/// bytes may have changed. It does not allocate.
///
/// ```
/// # use zerotrie::{rstd::examples::*, zerotrie_build::*, zerotrie_base::*};
/// let items = [("ad", 22), ("adef", 33)];
/// let mut buffer = [0; 10];
/// let start = fill_from_end::<0>(&mut buffer, ByteSliceWithIndices::from_str_slice(&items))?;
/// assert_eq!(&buffer[start..], b"ad\x90\x06ef\x90\x11".as_slice());
/// # Ok::<(), Fail>(())
/// ```
///
/// The text is written from its end, with the targets of a branch from the last to the first, so
/// each target waits for those before it. As many of them as wait at once the stack has to hold.
/// `K` has to be below 2^58, as a stack that fits a machine is.
///
/// A build returns the error `Unsorted`, `NonAsciiError`, `CapacityExceeded`, `BufferTooSmall` or
/// `StackExceeded`, each for the reason that `ZeroTrieBuildError` gives, and never if there is
/// none.
pub fn fill_from_end<const K: usize>(
    buffer: &mut [u8],
    items: ByteSliceWithIndices<'_>,
) -> Result<usize, ZeroTrieBuildError> {
    fill_from_end_as::<Simple, K>(buffer, items)
}

/// Writes the text of the trie of the items at the end of a buffer, as `fill_from_end`, in a kind
/// over ASCII keys: `Simple`, or `Ignore`, whose items ascend strictly by the bytes of their keys in
/// lower case.
///
/// ```
/// # use zerotrie::{rstd::examples::*, zerotrie_build::*, zerotrie_base::*};
/// let items = [("Accept", 1), ("DNT", 2), ("accept-ch", 3)];
/// let mut buffer = [0; 40];
/// let unsorted = ByteSliceWithIndices::from_str_slice(&items);
/// let error = fill_from_end_as::<Ignore, 2>(&mut buffer, unsorted).err();
/// assert!(error == Some(ZeroTrieBuildError::Unsorted));
///
/// let items = [("Accept", 1), ("Accept-CH", 3), ("dnt", 2)];
/// let sorted = ByteSliceWithIndices::from_str_slice(&items);
/// let start = fill_from_end_as::<Ignore, 2>(&mut buffer, sorted)?;
/// assert_eq!(&buffer[start..], b"\xC2Ad\x0Accept\x81-CH\x83nt\x82".as_slice());
/// # Ok::<(), Fail>(())
/// ```
///
/// In `Ignore` a build may also return the error `MixedCase`.
pub fn fill_from_end_as<K: ZeroTrieWithOptions, const STACK: usize>(
    buffer: &mut [u8],
    items: ByteSliceWithIndices<'_>,
) -> Result<usize, ZeroTrieBuildError> {
    laws::canonical_exactly();
    laws::meant_fits();
    let len = write::<K, STACK>(buffer, items)?;
    if len > buffer.len() {
        return Err(ZeroTrieBuildError::BufferTooSmall);
    }
    Ok(buffer.len() - len)
}

/// Builds the trie of the items as `fill_from_end`, in memory of its own, and returns its bytes, of
/// which there may be `most`.
///
/// They are counted first, and then it allocates memory for as many. Its errors are those of a
/// build in a buffer of `most` bytes, and `OutOfMemory`.
pub fn bytes_within<const K: usize>(
    alloc: Global,
    most: usize,
    items: ByteSliceWithIndices<'_>,
) -> Result<Vec<u8>, ZeroTrieBuildError> {
    bytes_within_as::<Simple, K>(alloc, most, items)
}

/// Builds the trie of the items as `bytes_within`, in a kind over ASCII keys, as
/// `fill_from_end_as`.
pub fn bytes_within_as<K: ZeroTrieWithOptions, const STACK: usize>(
    alloc: Global,
    most: usize,
    items: ByteSliceWithIndices<'_>,
) -> Result<Vec<u8>, ZeroTrieBuildError> {
    laws::canonical_exactly();
    laws::meant_fits();
    let len = write::<K, STACK>(&mut [], items)?;
    if len > most {
        return Err(ZeroTrieBuildError::BufferTooSmall);
    }
    let mut bytes = crate::rstd::vec_in![in alloc; 0; len]?;
    write::<K, STACK>(bytes.as_mut_slice(), items)?;
    Ok(bytes)
}

/// Writes the text of the trie of the items at the end of the buffer, if it has room for it, and
/// returns how many bytes the text has, or the greatest number if it has more.
fn write<K: ZeroTrieWithOptions, const STACK: usize>(
    buffer: &mut [u8],
    items: ByteSliceWithIndices<'_>,
) -> Result<usize, ZeroTrieBuildError> {
    in_order::<K>(items)?;
    if !items.is_all_ascii() {
        return Err(ZeroTrieBuildError::NonAsciiError);
    }
    build_text::<K, STACK>(buffer, items)
}

/// Returns an error if items are not in the order of the kind, by the first two neighbours that are
/// not: `MixedCase` if they part in case, and else `Unsorted`.
fn in_order<K: ZeroTrieWithOptions>(
    items: ByteSliceWithIndices<'_>,
) -> Result<(), ZeroTrieBuildError> {
    let Some(index) = first_unordered::<K, _>(items) else {
        return Ok(());
    };
    let (key, _) = items.get(index);
    let (next, _) = items.get(index + 1);
    if part_in_case::<K>(key, next) {
        return Err(ZeroTrieBuildError::MixedCase);
    }
    Err(ZeroTrieBuildError::Unsorted)
}

/// Returns whether two keys part in case: at bytes that differ, but have one fold.
fn part_in_case<K: ZeroTrieWithOptions>(key: &[u8], next: &[u8]) -> bool {
    let common = common_front_len(key, next);
    if common == key.len().min(next.len()) {
        return false;
    }
    folded::<K>(key[common]) == folded::<K>(next[common])
}
