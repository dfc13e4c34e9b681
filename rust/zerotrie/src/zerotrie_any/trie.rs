// Made from crates/zerotrie_any/src/trie.rt by rust/make: edit that.
//! A trie whose kind is a value at run time: one of the three kinds that keep case.

use crate::rstd::prelude::*;
use crate::zerotrie_any::kind::is_simple;
use crate::zerotrie_any::routes::{bytes_from_iter, bytes_from_slice, items_of};
use crate::zerotrie_any::text_key::TextKey;
use crate::rstd::alloc::{AllocError, Global};
use crate::rstd::collections::BTreeMap;
use crate::rstd::fmt;
use crate::zerotrie_core::{
    ConvertStore, Ext, Hash, Simple, Trie, TrieKey, TrieKind, TrieStore, ZeroTrieBuildError,
    ZeroTrieWithOptions, get,
};

/// The kinds that a `ZeroTrie` may have.
#[derive(Clone, Copy, Debug, PartialEq, Eq)]
pub enum ZeroTrieFlavor {
    /// ASCII keys, as `ZeroTrieSimpleAscii` has them.
    SimpleAscii,
    /// Keys of any bytes, as `ZeroTriePerfectHash` has them.
    PerfectHash,
    /// Keys of any bytes, also in more than 4 GB, as `ZeroTrieExtendedCapacity` has them.
    ExtendedCapacity,
}

// Calls a function at the kind of a flavor, whose type takes the place of `_`.
macro_rules! by_flavor {
    ($flavor:expr, $($f:ident)::+::<_ $(, $more:ty)*>($($arg:expr),* $(,)?)) => {
        match $flavor {
            $crate::zerotrie_any::ZeroTrieFlavor::SimpleAscii => {
                $($f)::+::<crate::zerotrie_core::Simple $(, $more)*>($($arg),*)
            }
            $crate::zerotrie_any::ZeroTrieFlavor::PerfectHash => {
                $($f)::+::<crate::zerotrie_core::Hash $(, $more)*>($($arg),*)
            }
            $crate::zerotrie_any::ZeroTrieFlavor::ExtendedCapacity => {
                $($f)::+::<crate::zerotrie_core::Ext $(, $more)*>($($arg),*)
            }
        }
    };
}

pub(in crate::made::zerotrie_any) use by_flavor;

/// A kind that a `ZeroTrie` may have: `Simple`, `Hash` or `Ext`.
pub trait HasFlavor: ZeroTrieWithOptions {
    /// Returns the kind as a value.
    fn flavor() -> ZeroTrieFlavor;
}

impl HasFlavor for Simple {
    fn flavor() -> ZeroTrieFlavor {
        ZeroTrieFlavor::SimpleAscii
    }
}

impl HasFlavor for Hash {
    fn flavor() -> ZeroTrieFlavor {
        ZeroTrieFlavor::PerfectHash
    }
}

impl HasFlavor for Ext {
    fn flavor() -> ZeroTrieFlavor {
        ZeroTrieFlavor::ExtendedCapacity
    }
}

/// A map from keys to numbers, whose kind is a value at run time: that of a `ZeroTrieSimpleAscii`,
/// a `ZeroTriePerfectHash` or a `ZeroTrieExtendedCapacity`.
///
/// ```
/// # use zerotrie::{rstd::examples::*, zerotrie_any::*, zerotrie_base::*, zerotrie_core::*, zerotrie_build::*};
/// let trie = ZeroTrie::try_from_iter(Global, [("abc", 11), ("xyz", 22), ("axyb", 33)])?;
/// assert_eq!(trie.get(b"axyb"), Some(33));
/// assert_eq!(trie.byte_len(), 18);
/// # Ok::<(), Fail>(())
/// ```
///
/// Any kind and store of bytes can be a trie. On valid bytes, such as those of every build, each
/// call returns the result for their map. On malformed bytes results are unspecified; no call
/// panics or reads outside them. The trait `Trie` has further calls.
///
/// A build from pairs chooses the kind of `ZeroTrieSimpleAscii` if all keys are ASCII and there are
/// fewer than 512, and otherwise that of `ZeroTriePerfectHash`.
pub struct ZeroTrie<S> {
    /// The kind of the trie.
    pub flavor: ZeroTrieFlavor,
    /// The bytes of the trie.
    pub store: S,
}

impl<S> ZeroTrie<S> {
    /// Returns the trie of the kind `K` over the bytes of this store. Does not validate them.
    pub fn of_kind<K: HasFlavor>(store: S) -> Self {
        ZeroTrie {
            flavor: K::flavor(),
            store,
        }
    }

    /// Returns the store of the trie.
    pub fn into_store(self) -> S {
        let ZeroTrie { flavor: _, store } = self;
        store
    }
}

impl<S: TrieStore> ZeroTrie<S> {
    /// Returns the trie of the same bytes over another type of store. Does not allocate.
    pub fn convert_store<X: ConvertStore<S>>(self) -> ZeroTrie<X> {
        ZeroTrie {
            flavor: self.flavor,
            store: X::convert(self.into_store()),
        }
    }

    /// Returns the value of the key, or `None` if the trie does not have it. Does not allocate.
    ///
    /// On malformed bytes the result is unspecified; it never panics or reads outside them.
    pub fn get(&self, key: &[u8]) -> Option<usize> {
        let bytes = self.store.bytes();
        by_flavor!(self.flavor, get::<_>(bytes, key))
    }

    /// Returns whether there are no bytes, as in a trie with no keys.
    pub fn is_empty(&self) -> bool {
        self.store.bytes().is_empty()
    }

    /// Returns the number of bytes.
    pub fn byte_len(&self) -> usize {
        self.store.bytes().len()
    }

    /// Returns the bytes of the trie.
    pub fn as_bytes(&self) -> &[u8] {
        self.store.bytes()
    }

    /// Returns the same trie, which borrows these bytes.
    pub fn as_borrowed(&self) -> ZeroTrie<&[u8]> {
        ZeroTrie {
            flavor: self.flavor,
            store: self.as_bytes(),
        }
    }

    /// Returns the same trie, which borrows these bytes, as `as_borrowed` does.
    pub fn as_borrowed_slice(&self) -> ZeroTrie<&[u8]> {
        self.as_borrowed()
    }

    /// Returns the same trie over a copy of its bytes.
    ///
    /// ```
    /// # use zerotrie::{rstd::examples::*, zerotrie_any::*, zerotrie_base::*, zerotrie_core::*, zerotrie_build::*};
    /// let trie = ZeroTrie::of_kind::<Hash>(b"abc\x85".as_slice());
    /// assert_eq!(trie.to_owned(Global)?.get(b"abc"), Some(5));
    /// # Ok::<(), Fail>(())
    /// ```
    ///
    /// An error means that an allocation failed.
    pub fn to_owned(&self, alloc: Global) -> Result<ZeroTrie<Vec<u8>>, AllocError> {
        let store = Vec::from_slice(alloc, self.as_bytes())?;
        Ok(ZeroTrie {
            flavor: self.flavor,
            store,
        })
    }
}

impl<S: TrieStore> Trie for ZeroTrie<S> {
    #[inline]
    fn trie_kind(&self) -> TrieKind {
        match self.flavor {
            ZeroTrieFlavor::SimpleAscii => TrieKind::Simple,
            ZeroTrieFlavor::PerfectHash => TrieKind::Hash,
            ZeroTrieFlavor::ExtendedCapacity => TrieKind::Ext,
        }
    }

    #[inline]
    fn as_bytes(&self) -> &[u8] {
        self.store.bytes()
    }
}

impl<'a> ZeroTrie<&'a [u8]> {
    /// Returns the trie with no keys. Does not allocate. Its kind is that of a build of no pairs.
    ///
    /// ```
    /// # use zerotrie::{rstd::examples::*, zerotrie_any::*, zerotrie_base::*, zerotrie_core::*, zerotrie_build::*};
    /// assert_eq!(ZeroTrie::empty().get(b""), None);
    /// # Ok::<(), Fail>(())
    /// ```
    pub fn empty() -> Self {
        ZeroTrie::of_kind::<Simple>(&[])
    }
}

/// Builds the trie of a slice, of the kind `K`.
fn build_slice<K: HasFlavor>(
    alloc: Global,
    items: &[(&[u8], usize)],
) -> Result<ZeroTrie<Vec<u8>>, ZeroTrieBuildError> {
    let store = bytes_from_slice::<K>(alloc, items)?;
    Ok(ZeroTrie::of_kind::<K>(store))
}

/// Builds the trie of pairs in any order, of the kind `K`.
fn build_pairs<K: HasFlavor, Key: TrieKey>(
    alloc: Global,
    pairs: Vec<(Key, usize)>,
) -> Result<ZeroTrie<Vec<u8>>, ZeroTrieBuildError> {
    let store = bytes_from_iter::<K, Key, Vec<(Key, usize)>>(alloc, pairs)?;
    Ok(ZeroTrie::of_kind::<K>(store))
}

impl ZeroTrie<Vec<u8>> {
    /// Builds the trie of a map with string keys, `&str` or `String`. An empty map gives an empty
    /// trie.
    ///
    /// Errors: `CapacityExceeded`, `CouldNotSolvePerfectHash`, `OutOfMemory`; see
    /// `ZeroTrieBuildError`.
    pub fn try_from_btree_map_str<Key: TextKey>(
        alloc: Global,
        entries: &BTreeMap<Key, usize>,
    ) -> Result<Self, ZeroTrieBuildError> {
        Self::try_from_btree_map(alloc, entries)
    }

    /// Builds the trie of a map. An empty map gives an empty trie.
    ///
    /// Errors: `Unsorted` (never if the keys are ordered by their bytes, as byte and string keys
    /// are), `CapacityExceeded`, `CouldNotSolvePerfectHash`, `OutOfMemory`; see
    /// `ZeroTrieBuildError`.
    pub fn try_from_btree_map<Key: TrieKey + Ord>(
        alloc: Global,
        entries: &BTreeMap<Key, usize>,
    ) -> Result<Self, ZeroTrieBuildError> {
        let items = items_of(alloc, entries)?;
        Self::try_from_sorted_slice(alloc, items.as_slice())
    }

    /// Builds the trie of a slice, whose keys must ascend strictly by their bytes. An empty slice
    /// gives an empty trie.
    ///
    /// Errors: `Unsorted`, `CapacityExceeded`, `CouldNotSolvePerfectHash`, `OutOfMemory`; see
    /// `ZeroTrieBuildError`.
    pub fn try_from_sorted_slice(
        alloc: Global,
        items: &[(&[u8], usize)],
    ) -> Result<Self, ZeroTrieBuildError> {
        if is_simple(items) {
            build_slice::<Simple>(alloc, items)
        } else {
            build_slice::<Hash>(alloc, items)
        }
    }

    /// Builds the trie of all pairs of an iterator, in any order. An empty iterator gives an empty
    /// trie.
    ///
    /// ```
    /// # use zerotrie::{rstd::examples::*, zerotrie_any::*, zerotrie_base::*, zerotrie_core::*, zerotrie_build::*};
    /// let trie = ZeroTrie::try_from_iter(Global, [("å", 1), ("ø", 2)])?;
    /// assert_eq!(trie.get("ø".as_bytes()), Some(2));
    /// # Ok::<(), Fail>(())
    /// ```
    ///
    /// Errors: `DuplicateKey`, `CapacityExceeded`, `CouldNotSolvePerfectHash`, `OutOfMemory`; see
    /// `ZeroTrieBuildError`.
    pub fn try_from_iter<Key: TrieKey, U: IntoIterator<Item = (Key, usize)>>(
        alloc: Global,
        iter: U,
    ) -> Result<Self, ZeroTrieBuildError>
    where
    {
        let pairs: Vec<(Key, usize)> = iter.into_iter().collect_in(alloc)?;
        if is_simple(pairs.as_slice()) {
            build_pairs::<Simple, Key>(alloc, pairs)
        } else {
            build_pairs::<Hash, Key>(alloc, pairs)
        }
    }
}

impl<S: Copy> Clone for ZeroTrie<S> {
    fn clone(&self) -> Self {
        ZeroTrie {
            flavor: self.flavor,
            store: self.store,
        }
    }
}

impl<S: Copy> Copy for ZeroTrie<S> {}

/// Prints the kind and the number of bytes, as `ZeroTrie(SimpleAscii, 18 bytes)`.
impl<S: TrieStore> fmt::Debug for ZeroTrie<S> {
    fn fmt(&self, f: &mut fmt::Formatter<'_>) -> fmt::Result {
        write!(f, "ZeroTrie({:?}, {} bytes)", self.flavor, self.byte_len())
    }
}

impl<'a> Default for ZeroTrie<&'a [u8]> {
    fn default() -> Self {
        ZeroTrie::empty()
    }
}

impl<S: TrieStore> PartialEq for ZeroTrie<S> {
    fn eq(&self, other: &Self) -> bool {
        self.flavor == other.flavor && self.store.bytes() == other.store.bytes()
    }
}

impl<S: TrieStore> Eq for ZeroTrie<S> {}
