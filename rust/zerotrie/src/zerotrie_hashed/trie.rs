// Made from crates/zerotrie_hashed/src/trie.rt by rust/make: edit that.
//! The tries over keys of any bytes: one type, with an alias for each kind.

use crate::rstd::prelude::*;
use crate::rstd::alloc::{AllocError, Global};
use crate::rstd::collections::BTreeMap;
use crate::rstd::fmt;
use crate::rstd::marker::PhantomData;
use crate::zerotrie_any::{
    HasFlavor, TextKey, ZeroTrie, bytes_from_iter, bytes_from_map, bytes_from_slice,
};
use crate::zerotrie_build::{ByteSliceWithIndices, encoded_len};
use crate::zerotrie_core::{
    ConvertStore, Ext, Hash, Trie, TrieKey, TrieKind, TrieStore, ZeroTrieBuildError,
    ZeroTrieBuilderOptions, ZeroTrieWithOptions, get, laws,
};

/// A map from keys of any bytes to numbers, as a sequence of bytes that is read in place. `K` is
/// its kind.
///
/// Use it by the name of a kind: `ZeroTriePerfectHash` or `ZeroTrieExtendedCapacity`.
///
/// Any store of bytes can be a trie. On valid bytes, such as those of every build, each call
/// returns the result for their map. On malformed bytes results are unspecified; no call panics or
/// reads outside them. A branch of 16 edges or more has a perfect hash, whose parameters are found
/// by a search, so a map may have several encodings: tries with equal bytes have equal maps, but
/// tries of one map may differ in their bytes. The trait `Trie` has further calls.
pub struct HashedTrie<K, S> {
    /// The bytes of the trie.
    pub store: S,
    kind: PhantomData<K>,
}

/// A map from keys of any bytes to numbers.
///
/// ```
/// # use zerotrie::{rstd::examples::*, zerotrie_hashed::*, zerotrie_core::*, zerotrie_build::*, zerotrie_any::*};
/// let trie = ZeroTriePerfectHash::try_from_iter(Global, [("foo", 1), ("bår", 2)])?;
/// assert_eq!(trie.get("bår".as_bytes()), Some(2));
/// assert_eq!(trie.get(b"bar"), None);
/// # Ok::<(), Fail>(())
/// ```
///
/// A build returns the error `CapacityExceeded` if the targets of one branch would have 2^32 bytes
/// or more together.
pub type ZeroTriePerfectHash<S> = HashedTrie<Hash, S>;

/// A map from keys of any bytes to numbers, whose branches may have targets of any length.
///
/// ```
/// # use zerotrie::{rstd::examples::*, zerotrie_hashed::*, zerotrie_core::*, zerotrie_build::*, zerotrie_any::*};
/// let trie = ZeroTrieExtendedCapacity::try_from_iter(Global, [("foo", 1), ("bår", 2)])?;
/// assert_eq!(trie.get("bår".as_bytes()), Some(2));
/// assert_eq!(trie.get(b"bar"), None);
/// # Ok::<(), Fail>(())
/// ```
///
/// Below 2^32 bytes its encodings are those of `ZeroTriePerfectHash`.
pub type ZeroTrieExtendedCapacity<S> = HashedTrie<Ext, S>;

impl<K, S> HashedTrie<K, S> {
    /// Returns the trie over the bytes of this store. Does not validate them.
    pub fn from_store(store: S) -> Self {
        HashedTrie {
            store,
            kind: PhantomData,
        }
    }

    /// Returns the store of the trie.
    pub fn into_store(self) -> S {
        let HashedTrie { store, kind: _ } = self;
        store
    }
}

impl<K, S: TrieStore> HashedTrie<K, S> {
    /// Returns the trie of the same bytes over another type of store. Does not allocate.
    ///
    /// ```
    /// # use zerotrie::{rstd::examples::*, zerotrie_hashed::*, zerotrie_core::*, zerotrie_build::*, zerotrie_any::*};
    /// let trie = ZeroTriePerfectHash::from_bytes(b"abc\x85");
    /// let shared: ZeroTriePerfectHash<CowSlice<'_, u8>> = trie.convert_store();
    /// assert_eq!(shared.get(b"abc"), Some(5));
    /// # Ok::<(), Fail>(())
    /// ```
    pub fn convert_store<X: ConvertStore<S>>(self) -> HashedTrie<K, X> {
        HashedTrie::from_store(X::convert(self.into_store()))
    }

    /// Returns whether there are no bytes, as in a trie with no keys.
    pub fn is_empty(&self) -> bool {
        self.as_bytes().is_empty()
    }

    /// Returns the number of bytes.
    pub fn byte_len(&self) -> usize {
        self.as_bytes().len()
    }

    /// Returns the bytes of the trie.
    pub fn as_bytes(&self) -> &[u8] {
        self.store.bytes()
    }

    /// Returns the same trie, which borrows these bytes.
    pub fn as_borrowed(&self) -> HashedTrie<K, &[u8]> {
        HashedTrie::from_bytes(self.as_bytes())
    }

    /// Returns the same trie, which borrows these bytes, as `as_borrowed` does.
    pub fn as_borrowed_slice(&self) -> HashedTrie<K, &[u8]> {
        self.as_borrowed()
    }

    /// Returns the same trie over a copy of its bytes.
    ///
    /// ```
    /// # use zerotrie::{rstd::examples::*, zerotrie_hashed::*, zerotrie_core::*, zerotrie_build::*, zerotrie_any::*};
    /// let trie = ZeroTriePerfectHash::from_bytes(b"abc\x85");
    /// assert_eq!(trie.to_owned(Global)?.get(b"abc"), Some(5));
    /// # Ok::<(), Fail>(())
    /// ```
    ///
    /// An error means that an allocation failed.
    pub fn to_owned(&self, alloc: Global) -> Result<HashedTrie<K, Vec<u8>>, AllocError> {
        let store = Vec::from_slice(alloc, self.as_bytes())?;
        Ok(HashedTrie::from_store(store))
    }
}

impl<K: HashedKind, S: TrieStore> Trie for HashedTrie<K, S> {
    #[inline(always)]
    fn trie_kind(&self) -> TrieKind {
        ZeroTrieBuilderOptions::of::<K>().kind()
    }

    #[inline(always)]
    fn as_bytes(&self) -> &[u8] {
        self.store.bytes()
    }
}

impl<K: HashedKind, S: TrieStore> HashedTrie<K, S> {
    /// Returns the value of the key, or `None` if the trie does not have it. Does not allocate.
    ///
    /// ```
    /// # use zerotrie::{rstd::examples::*, zerotrie_hashed::*, zerotrie_core::*, zerotrie_build::*, zerotrie_any::*};
    /// let trie = ZeroTriePerfectHash::from_bytes(b"abc\x85");
    /// assert_eq!(trie.get(b"abc"), Some(5));
    /// assert_eq!(trie.get(b"ab"), None);
    /// # Ok::<(), Fail>(())
    /// ```
    ///
    /// On malformed bytes the result is unspecified; it never panics or reads outside them.
    ///
    /// `get` is inlined at every call site (about 3 KB), and so are `get_str`, `contains_key` and a
    /// cursor's `step`. To have its code once, call it from a function of your own that is
    /// `#[inline(never)]`.
    #[inline(always)]
    pub fn get(&self, key: &[u8]) -> Option<usize> {
        get::<K>(self.as_bytes(), key)
    }
}

impl<K: HashedKind, S> HashedTrie<K, S> {
    /// Returns the same trie as a `ZeroTrie`.
    pub fn into_zerotrie(self) -> ZeroTrie<S> {
        ZeroTrie::of_kind::<K>(self.into_store())
    }
}

impl<'a, K> HashedTrie<K, &'a [u8]> {
    /// Returns the trie over these bytes. Does not validate them.
    ///
    /// ```
    /// # use zerotrie::{rstd::examples::*, zerotrie_hashed::*, zerotrie_core::*, zerotrie_build::*, zerotrie_any::*};
    /// let trie = ZeroTriePerfectHash::from_bytes(b"in\x83to\x84");
    /// assert_eq!(trie.get(b"into"), Some(4));
    /// # Ok::<(), Fail>(())
    /// ```
    pub fn from_bytes(bytes: &'a [u8]) -> Self {
        HashedTrie::from_store(bytes)
    }
}

impl<'a, K: HashedKind> HashedTrie<K, &'a [u8]> {
    /// Returns the trie with no keys. Does not allocate.
    ///
    /// ```
    /// # use zerotrie::{rstd::examples::*, zerotrie_hashed::*, zerotrie_core::*, zerotrie_build::*, zerotrie_any::*};
    /// assert_eq!(ZeroTriePerfectHash::empty().get(b""), None);
    /// # Ok::<(), Fail>(())
    /// ```
    pub fn empty() -> Self {
        HashedTrie::from_bytes(&[])
    }
}

impl<K: HashedKind> HashedTrie<K, Vec<u8>> {
    /// Returns the length in bytes of the trie of a slice, whose keys must ascend strictly by their
    /// bytes. Does not build it.
    ///
    /// ```
    /// # use zerotrie::{rstd::examples::*, zerotrie_hashed::*, zerotrie_core::*, zerotrie_build::*, zerotrie_any::*};
    /// let items: [(&[u8], usize); 2] = [(b"ad", 22), (b"adef", 33)];
    /// assert_eq!(ZeroTriePerfectHash::encoded_len(Global, &items)?, 8);
    /// # Ok::<(), Fail>(())
    /// ```
    ///
    /// Errors: `Unsorted`, `CapacityExceeded`, `OutOfMemory`; see `ZeroTrieBuildError`.
    pub fn encoded_len(alloc: Global, items: &[(&[u8], usize)]) -> Result<usize, ZeroTrieBuildError> {
        let items = ByteSliceWithIndices::from_byte_slice(items);
        encoded_len(alloc, items, ZeroTrieBuilderOptions::of::<K>())
    }

    /// Returns the length in bytes of the trie of a slice, as `encoded_len` does, for `str` keys.
    ///
    /// ```
    /// # use zerotrie::{rstd::examples::*, zerotrie_hashed::*, zerotrie_core::*, zerotrie_build::*, zerotrie_any::*};
    /// let items = [("ad", 22), ("adef", 33)];
    /// assert_eq!(ZeroTriePerfectHash::encoded_len_str(Global, &items)?, 8);
    /// # Ok::<(), Fail>(())
    /// ```
    pub fn encoded_len_str(
        alloc: Global,
        items: &[(&str, usize)],
    ) -> Result<usize, ZeroTrieBuildError> {
        let items = ByteSliceWithIndices::from_str_slice(items);
        encoded_len(alloc, items, ZeroTrieBuilderOptions::of::<K>())
    }

    /// Builds the trie of a map with string keys, `&str` or `String`. An empty map gives an empty
    /// trie.
    ///
    /// ```
    /// # use zerotrie::{rstd::examples::*, zerotrie_hashed::*, zerotrie_core::*, zerotrie_build::*, zerotrie_any::*};
    /// let mut map: BTreeMap<&str, usize> = BTreeMap::new(Global);
    /// map.insert("ad", 22)?;
    /// let trie = ZeroTriePerfectHash::try_from_btree_map_str(Global, &map)?;
    /// assert_eq!(trie.get(b"ad"), Some(22));
    /// # Ok::<(), Fail>(())
    /// ```
    ///
    /// Errors: `CapacityExceeded`, `CouldNotSolvePerfectHash`, `OutOfMemory`; see
    /// `ZeroTrieBuildError`.
    pub fn try_from_btree_map_str<Key: TextKey>(
        alloc: Global,
        entries: &BTreeMap<Key, usize>,
    ) -> Result<Self, ZeroTrieBuildError> {
        Self::try_from_btree_map(alloc, entries)
    }

    /// Builds the trie of a map. An empty map gives an empty trie.
    ///
    /// Errors: `Unsorted` (never if the keys are ordered by their bytes, as byte and string keys
    /// are), `CapacityExceeded`, `CouldNotSolvePerfectHash`, `OutOfMemory`; see
    /// `ZeroTrieBuildError`.
    pub fn try_from_btree_map<Key: TrieKey + Ord>(
        alloc: Global,
        entries: &BTreeMap<Key, usize>,
    ) -> Result<Self, ZeroTrieBuildError> {
        let store = bytes_from_map::<K, Key>(alloc, entries)?;
        Ok(HashedTrie::from_store(store))
    }

    /// Builds the trie of a slice, whose keys must ascend strictly by their bytes. An empty slice
    /// gives an empty trie.
    ///
    /// ```
    /// # use zerotrie::{rstd::examples::*, zerotrie_hashed::*, zerotrie_core::*, zerotrie_build::*, zerotrie_any::*};
    /// let items: [(&[u8], usize); 2] = [(b"ad", 22), (b"adef", 33)];
    /// let trie = ZeroTriePerfectHash::try_from_sorted_slice(Global, &items)?;
    /// assert_eq!(trie.get(b"adef"), Some(33));
    /// # Ok::<(), Fail>(())
    /// ```
    ///
    /// Errors: `Unsorted`, `CapacityExceeded`, `CouldNotSolvePerfectHash`, `OutOfMemory`; see
    /// `ZeroTrieBuildError`.
    pub fn try_from_sorted_slice(
        alloc: Global,
        items: &[(&[u8], usize)],
    ) -> Result<Self, ZeroTrieBuildError> {
        let store = bytes_from_slice::<K>(alloc, items)?;
        Ok(HashedTrie::from_store(store))
    }

    /// Builds the trie of all pairs of an iterator, in any order. An empty iterator gives an empty
    /// trie.
    ///
    /// ```
    /// # use zerotrie::{rstd::examples::*, zerotrie_hashed::*, zerotrie_core::*, zerotrie_build::*, zerotrie_any::*};
    /// let trie = ZeroTriePerfectHash::try_from_iter(Global, [("xyz", 22), ("abc", 11)])?;
    /// assert_eq!(trie.get(b"abc"), Some(11));
    /// # Ok::<(), Fail>(())
    /// ```
    ///
    /// Errors: `DuplicateKey`, `CapacityExceeded`, `CouldNotSolvePerfectHash`, `OutOfMemory`; see
    /// `ZeroTrieBuildError`.
    pub fn try_from_iter<Key: TrieKey, U: IntoIterator<Item = (Key, usize)>>(
        alloc: Global,
        iter: U,
    ) -> Result<Self, ZeroTrieBuildError>
    where
    {
        let store = bytes_from_iter::<K, Key, U>(alloc, iter)?;
        Ok(HashedTrie::from_store(store))
    }
}

impl<K, S: Copy> Clone for HashedTrie<K, S> {
    fn clone(&self) -> Self {
        HashedTrie::from_store(self.store)
    }
}

impl<K, S: Copy> Copy for HashedTrie<K, S> {}

/// Prints the name of the kind and the number of bytes, as `ZeroTriePerfectHash(17 bytes)`.
impl<K: HashedKind, S: TrieStore> fmt::Debug for HashedTrie<K, S> {
    fn fmt(&self, f: &mut fmt::Formatter<'_>) -> fmt::Result {
        let name = if K::EXTENDED {
            "ZeroTrieExtendedCapacity"
        } else {
            "ZeroTriePerfectHash"
        };
        write!(f, "{name}({} bytes)", self.byte_len())
    }
}

impl<'a, K> Default for HashedTrie<K, &'a [u8]> {
    fn default() -> Self {
        HashedTrie::from_bytes(&[])
    }
}

impl<K: HashedKind, S: TrieStore> PartialEq for HashedTrie<K, S> {
    fn eq(&self, other: &Self) -> bool {
        laws::one_meaning();
        self.as_bytes() == other.as_bytes()
    }
}

impl<K: HashedKind, S: TrieStore> Eq for HashedTrie<K, S> {}

/// A kind of trie over keys of any bytes: `Hash` or `Ext`. A branch of 16 edges or more has a
/// perfect hash.
pub trait HashedKind: HasFlavor {}

impl HashedKind for Hash {}

impl HashedKind for Ext {}

impl<K: ZeroTrieWithOptions, S> ZeroTrieWithOptions for HashedTrie<K, S> {
    const USE_PHF: bool = K::USE_PHF;

    const SPANS: bool = K::SPANS;

    const EXTENDED: bool = K::EXTENDED;

    const IGNORE_CASE: bool = K::IGNORE_CASE;

    const TAG: u8 = K::TAG;
}
