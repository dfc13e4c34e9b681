// Made from crates/zerotrie_build/src/builder.rt by rust/make: edit that.
//! The builder.

use crate::rstd::prelude::*;
use crate::zerotrie_build::blocks::items_by_blocks;
use crate::zerotrie_build::branch::{Layout, WriteInput, all_pending};
use crate::zerotrie_build::items::{ByteSliceWithIndices, IndexedItems};
use crate::zerotrie_build::measure::measure_all;
use crate::zerotrie_build::order::{are_ascii, are_in_order, are_keys, is_ordered};
use crate::zerotrie_build::sort::sorted_by_keys;
use crate::zerotrie_build::store::TrieBuilderStore;
use crate::zerotrie_build::write::Writing;
use crate::rstd::alloc::{AllocError, Allocator, Global};
use crate::zerotrie_base::{
    TrieKey, ZeroTrieBuildError, ZeroTrieBuilderOptions, ZeroTrieWithOptions, by_kind, laws,
};

/// Returns the items in the order of the kind, sorted by blocks of their keys. `None` if an
/// allocation failed, or if they have no order of the kind, as where a key comes twice.
fn in_order_by_blocks<K: ZeroTrieWithOptions, Key: TrieKey, A: Allocator + Copy>(
    alloc: A,
    given: &[(Key, usize)],
) -> Option<Vec<(&[u8], usize), A>> {
    // The given order is often that in which the keys lie in memory.
    if !are_keys::<K, _>(given) {
        return None;
    }
    let Ok(items) = items_by_blocks::<K, Key, A>(alloc, given) else {
        return None;
    };
    if !is_ordered::<K, _>(items.as_slice()) {
        return None;
    }
    Some(items)
}

/// Returns the items in the order of the kind, sorted by their whole keys.
fn in_order_by_keys<K: ZeroTrieWithOptions, Key: TrieKey, A: Allocator + Copy>(
    alloc: A,
    given: &[(Key, usize)],
) -> Result<Vec<(&[u8], usize), A>, ZeroTrieBuildError> {
    let items = sorted_by_keys::<K, Key, A>(alloc, given)?;
    if !are_keys::<K, _>(given) {
        return Err(ZeroTrieBuildError::NonAsciiError);
    }
    if K::IGNORE_CASE && !is_ordered::<K, _>(items.as_slice()) {
        return Err(ZeroTrieBuildError::MixedCase);
    }
    Ok(items)
}

/// Returns the items in the order of the kind. A sort by whole keys shows why they have none, and
/// needs less memory.
fn in_order<K: ZeroTrieWithOptions, Key: TrieKey, A: Allocator + Copy>(
    alloc: A,
    given: &[(Key, usize)],
) -> Result<Vec<(&[u8], usize), A>, ZeroTrieBuildError> {
    match in_order_by_blocks::<K, Key, A>(alloc, given) {
        Some(items) => Ok(items),
        None => in_order_by_keys::<K, Key, A>(alloc, given),
    }
}

/// Builds the trie of items in the order of the kind: measures it and then writes it. Its bytes and
/// hashed tables are allocated from `alloc`. If `ascii` is true, all keys are ASCII.
fn build_ordered<
    'a,
    K: ZeroTrieWithOptions,
    I: IndexedItems<'a>,
    S: TrieBuilderStore,
    A: Allocator + Copy,
>(alloc: Global, spare: A, items: I, ascii: bool) -> Result<S, ZeroTrieBuildError> {
    laws::canonical_exactly();
    laws::meant_fits();
    let measured = measure_all::<K, I, A>(spare, items, ascii)?;
    let mut writing = Writing::<S>::new(alloc, measured.len)?;
    let mut layout = Layout::new(alloc, spare);
    let pending = all_pending(spare, items.len())?;
    let input = WriteInput::new(&measured, ascii);
    writing.put_pending::<K, I, A>(items, input, &mut layout, pending)?;
    Ok(writing.into_store())
}

/// Builds the trie of items in any order. Puts them in the order of the kind.
fn build_sorted<
    K: ZeroTrieWithOptions,
    Key: TrieKey,
    S: TrieBuilderStore,
    A: Allocator + Copy,
>(alloc: Global, spare: A, given: &[(Key, usize)]) -> Result<S, ZeroTrieBuildError> {
    let items = in_order::<K, Key, A>(spare, given)?;
    let ascii = are_ascii::<K, _>(given);
    build_ordered::<K, _, S, A>(alloc, spare, items.as_slice(), ascii)
}

/// Builds the trie of items that ascend by the bytes of their keys. If the kind has another order,
/// they are sorted once more, unless they are in that order too.
pub fn build_ascending<K: ZeroTrieWithOptions, Key: TrieKey, S: TrieBuilderStore, A: Allocator + Copy>(
    alloc: Global,
    spare: A,
    items: &[(Key, usize)],
) -> Result<S, ZeroTrieBuildError> {
    if are_in_order::<K, _>(items)? {
        return build_ordered::<K, _, S, A>(alloc, spare, items, are_ascii::<K, _>(items));
    }
    build_sorted::<K, Key, S, A>(alloc, spare, items)
}

/// Returns the items with their keys as bytes: a copy, if they are text.
fn with_bytes<'i, 'a: 'i>(
    items: ByteSliceWithIndices<'a>,
    copy: &'i mut Option<Vec<(&'a [u8], usize)>>,
) -> Result<&'i [(&'a [u8], usize)], AllocError> {
    match items {
        ByteSliceWithIndices::Bytes(items) => Ok(items),
        ByteSliceWithIndices::Str(_) => Ok(copy.insert(items.to_vec_u8(Global)?).as_slice()),
    }
}

/// Builds the trie of items that ascend by the bytes of their keys, in the kind of the options.
/// What it takes beside the store comes from the allocator `spare`.
///
/// A build has the errors of one by `ZeroTrieBuilder`.
pub fn build_slice<S: TrieBuilderStore, A: Allocator + Copy>(
    alloc: Global,
    spare: A,
    items: ByteSliceWithIndices<'_>,
    options: ZeroTrieBuilderOptions,
) -> Result<S, ZeroTrieBuildError> {
    let mut copy = None;
    let items = with_bytes(items, &mut copy)?;
    by_kind!(
        options.kind(),
        build_ascending::<_, &[u8], S, A>(alloc, spare, items)
    )
}

/// Builds the trie of items in any order. If they are in the order of the kind, they are read where
/// they are, and else they are sorted.
pub fn build_given<
    K: ZeroTrieWithOptions,
    Key: TrieKey,
    S: TrieBuilderStore,
    A: Allocator + Copy,
>(alloc: Global, spare: A, given: &[(Key, usize)]) -> Result<S, ZeroTrieBuildError> {
    if !is_ordered::<K, _>(given) {
        return build_sorted::<K, Key, S, A>(alloc, spare, given);
    }
    if !are_keys::<K, _>(given) {
        return Err(ZeroTrieBuildError::NonAsciiError);
    }
    build_ordered::<K, _, S, A>(alloc, spare, given, are_ascii::<K, _>(given))
}

/// Builds the trie of items in any order, in the kind of the options.
fn build_any<Key: TrieKey, S: TrieBuilderStore, A: Allocator + Copy>(
    alloc: Global,
    spare: A,
    given: &[(Key, usize)],
    options: ZeroTrieBuilderOptions,
) -> Result<S, ZeroTrieBuildError> {
    by_kind!(
        options.kind(),
        build_given::<_, Key, S, A>(alloc, spare, given)
    )
}

/// Returns the length of a build of items in the order of the kind.
fn len_ordered<K: ZeroTrieWithOptions, Key: TrieKey, A: Allocator + Copy>(
    alloc: A,
    items: &[(Key, usize)],
) -> Result<usize, ZeroTrieBuildError> {
    let measured = measure_all::<K, _, A>(alloc, items, are_ascii::<K, _>(items))?;
    Ok(measured.len)
}

/// Returns the length of a build of items in any order. Puts them in the order of the kind.
fn len_sorted<K: ZeroTrieWithOptions, Key: TrieKey, A: Allocator + Copy>(
    alloc: A,
    given: &[(Key, usize)],
) -> Result<usize, ZeroTrieBuildError> {
    let items = in_order::<K, Key, A>(alloc, given)?;
    len_ordered::<K, _, A>(alloc, items.as_slice())
}

/// Returns the length of a build of items that ascend by the bytes of their keys.
pub fn len_ascending<K: ZeroTrieWithOptions, Key: TrieKey, A: Allocator + Copy>(
    alloc: A,
    items: &[(Key, usize)],
) -> Result<usize, ZeroTrieBuildError> {
    if are_in_order::<K, _>(items)? {
        return len_ordered::<K, Key, A>(alloc, items);
    }
    len_sorted::<K, Key, A>(alloc, items)
}

/// Returns the length of a build of items that ascend by the bytes of their keys, in the kind of
/// the options.
fn len_slice<A: Allocator + Copy>(
    alloc: A,
    items: ByteSliceWithIndices<'_>,
    options: ZeroTrieBuilderOptions,
) -> Result<usize, ZeroTrieBuildError> {
    let mut copy = None;
    let items = with_bytes(items, &mut copy)?;
    by_kind!(options.kind(), len_ascending::<_, &[u8], A>(alloc, items))
}

/// Returns how many bytes a build of the items has, whose keys must ascend strictly by their bytes.
/// Writes none of them. No items have no bytes.
///
/// ```
/// # use zerotrie::{rstd::examples::*, zerotrie_build::*, zerotrie_base::*};
/// let items = [("ad", 22), ("adef", 33)];
/// let items = ByteSliceWithIndices::from_str_slice(&items);
/// assert_eq!(encoded_len(Global, items, ZeroTrieBuilderOptions::of::<Simple>())?, 8);
/// # Ok::<(), Fail>(())
/// ```
///
/// It returns the error `Unsorted`, `NonAsciiError`, `MixedCase`, `CapacityExceeded` or
/// `OutOfMemory`, each for the reason that `ZeroTrieBuildError` gives, and so exactly if a build
/// does, but for a hashed table that isn't found.
pub fn encoded_len(
    alloc: Global,
    items: ByteSliceWithIndices<'_>,
    options: ZeroTrieBuilderOptions,
) -> Result<usize, ZeroTrieBuildError> {
    if !items.is_sorted() {
        return Err(ZeroTrieBuildError::Unsorted);
    }
    let len = len_slice(alloc, items, options)?;
    Ok(len)
}

/// A builder of tries, which measures their bytes and then writes them into a store. The store grows
/// once, by zeros, and each byte is set at its place, from the first to the last.
///
/// ```
/// # use zerotrie::{rstd::examples::*, zerotrie_build::*, zerotrie_base::*};
/// let items = [("ad", 22), ("adef", 33)];
/// let builder: ZeroTrieBuilder<VecDeque<u8>> = ZeroTrieBuilder::from_sorted_tuple_slice(
///     Global,
///     ByteSliceWithIndices::from_str_slice(&items),
///     ZeroTrieBuilderOptions::of::<Simple>(),
/// )?;
/// let bytes = builder.to_bytes(Global)?;
/// assert_eq!(bytes.as_slice(), b"ad\x90\x06ef\x90\x11".as_slice());
/// # Ok::<(), Fail>(())
/// ```
#[derive(Debug)]
pub struct ZeroTrieBuilder<S> {
    /// The bytes of the trie.
    pub data: S,
}

impl<S: TrieBuilderStore> ZeroTrieBuilder<S> {
    /// Builds the trie of the items, whose keys ascend strictly by their bytes, in the kind without
    /// case too. An empty input gives an empty trie.
    ///
    /// The bytes mean the map of the items, and for a kind whose tables are all sorted they are the
    /// map's one text.
    ///
    /// A build of any kind returns the error `Unsorted`, `CapacityExceeded` or `OutOfMemory`. The
    /// kinds over ASCII have `NonAsciiError` too, the kind without case `MixedCase`, and the hashed
    /// kinds `CouldNotSolvePerfectHash`. Each has the reason that `ZeroTrieBuildError` gives.
    pub fn from_sorted_tuple_slice(
        alloc: Global,
        items: ByteSliceWithIndices<'_>,
        options: ZeroTrieBuilderOptions,
    ) -> Result<Self, ZeroTrieBuildError> {
        if !items.is_sorted() {
            return Err(ZeroTrieBuildError::Unsorted);
        }
        let data = build_slice(alloc, alloc, items, options)?;
        Ok(ZeroTrieBuilder { data })
    }

    /// Builds the trie of the items of a slice, in any order. An empty input gives an empty trie.
    /// If they are in the order of the kind, they are read where they are, and else a sorted copy
    /// of the items is made.
    ///
    /// A build has the errors of `from_bytes_iter`, each for the reason that `ZeroTrieBuildError`
    /// gives.
    pub fn from_tuple_slice<K: TrieKey>(
        alloc: Global,
        items: &[(K, usize)],
        options: ZeroTrieBuilderOptions,
    ) -> Result<Self, ZeroTrieBuildError> {
        let data = build_any(alloc, alloc, items, options)?;
        Ok(ZeroTrieBuilder { data })
    }

    /// Builds the trie of all pairs that the iterator gives, in any order. An empty input gives an
    /// empty trie.
    ///
    /// A build has the errors of one of a slice, each for the reason that `ZeroTrieBuildError`
    /// gives, but `DuplicateKey` in place of `Unsorted`.
    pub fn from_bytes_iter<K: TrieKey, U: IntoIterator<Item = (K, usize)>>(
        alloc: Global,
        iter: U,
        options: ZeroTrieBuilderOptions,
    ) -> Result<Self, ZeroTrieBuildError>
    where
    {
        let mut given: Vec<(K, usize)> = iter.into_iter().collect_in(alloc)?;
        given.shrink_to_fit();
        let data = build_any(alloc, alloc, given.as_slice(), options)?;
        Ok(ZeroTrieBuilder { data })
    }

    /// Returns a copy of the bytes of the trie. The only error is out of memory.
    pub fn to_bytes(&self, alloc: Global) -> Result<Vec<u8>, AllocError> {
        self.data.atbs_to_bytes(alloc)
    }
}
