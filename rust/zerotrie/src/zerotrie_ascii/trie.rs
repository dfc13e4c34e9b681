// Made from crates/zerotrie_ascii/src/trie.rt by rust/make: edit that.
//! The tries over ASCII keys: one type, with an alias for each kind.

use crate::rstd::prelude::*;
use crate::rstd::alloc::{AllocError, Global};
use crate::rstd::collections::BTreeMap;
use crate::rstd::fmt;
use crate::rstd::marker::PhantomData;
use crate::zerotrie_any::{TextKey, ZeroTrie, bytes_from_iter, bytes_from_map, bytes_from_slice};
use crate::zerotrie_build::{ByteSliceWithIndices, encoded_len};
use crate::zerotrie_core::{
    ConvertStore, Ignore, Simple, Trie, TrieKey, TrieKind, TrieStore, ZeroTrieBuildError,
    ZeroTrieBuilderOptions, ZeroTrieWithOptions, get, laws,
};

/// A map from ASCII keys to numbers, as a sequence of bytes that is read in place. `K` is its kind.
///
/// Use it by the name of a kind: `ZeroTrieSimpleAscii` or `ZeroAsciiIgnoreCaseTrie`.
///
/// Any store of bytes can be a trie. On valid bytes, such as those of every build, each call
/// returns the result for their map. On malformed bytes results are unspecified; no call panics or
/// reads outside them. A map has one encoding in each of these kinds, so tries of one map have
/// equal bytes. The trait `Trie` has further calls.
pub struct AsciiTrie<K, S> {
    /// The bytes of the trie.
    pub store: S,
    kind: PhantomData<K>,
}

/// A map from ASCII keys to numbers.
///
/// ```
/// # use zerotrie::{rstd::examples::*, zerotrie_ascii::*, zerotrie_core::*, zerotrie_build::*, zerotrie_any::*};
/// let trie = ZeroTrieSimpleAscii::from_bytes(b"abc\x85");
/// assert_eq!(trie.get(b"abc"), Some(5));
/// assert_eq!(trie.get(b"ab"), None);
/// # Ok::<(), Fail>(())
/// ```
///
/// The edges of a branch ascend by their bytes.
pub type ZeroTrieSimpleAscii<S> = AsciiTrie<Simple, S>;

/// A map from ASCII keys to numbers whose look-ups ignore case: keys that differ only in the case
/// of letters are the same.
///
/// ```
/// # use zerotrie::{rstd::examples::*, zerotrie_ascii::*, zerotrie_core::*, zerotrie_build::*, zerotrie_any::*};
/// let trie = ZeroAsciiIgnoreCaseTrie::from_bytes(b"aBc\x85");
/// assert_eq!(trie.get(b"abc"), Some(5));
/// assert_eq!(trie.get(b"ABC"), Some(5));
/// assert_eq!(trie.get(b"ab"), None);
/// # Ok::<(), Fail>(())
/// ```
///
/// The bytes keep the case of each key. The edges of a branch ascend by their bytes in lower case.
///
/// # Keys that differ in case
///
/// At the first byte where two keys differ, they must differ in more than case. So a trie can't
/// have a name in two spellings, nor both `Accept-CH` and `Accept-Charset`, which first differ at
/// `H` and `h`, nor both `DAV` and `Date`. A build of such keys returns the error `MixedCase`.
///
/// ```
/// # use zerotrie::{rstd::examples::*, zerotrie_ascii::*, zerotrie_core::*, zerotrie_build::*, zerotrie_any::*};
/// let names = [("Accept-CH", 1), ("Accept-Charset", 2)];
/// let error = ZeroAsciiIgnoreCaseTrie::try_from_iter(Global, names).err();
/// assert!(error == Some(ZeroTrieBuildError::MixedCase));
/// # Ok::<(), Fail>(())
/// ```
///
/// Lower-case such keys first. Look-ups find them in any case.
///
/// ```
/// # use zerotrie::{rstd::examples::*, zerotrie_ascii::*, zerotrie_core::*, zerotrie_build::*, zerotrie_any::*};
/// let mut names = Vec::new(Global);
/// for (name, number) in [("Accept-CH", 1), ("Accept-Charset", 2), ("DAV", 3), ("Date", 4)] {
///     names.push((name.to_ascii_lowercase(), number))?;
/// }
/// let trie = ZeroAsciiIgnoreCaseTrie::try_from_iter(Global, names)?;
/// assert_eq!(trie.get(b"Accept-CH"), Some(1));
/// assert_eq!(trie.get(b"DATE"), Some(4));
/// # Ok::<(), Fail>(())
/// ```
pub type ZeroAsciiIgnoreCaseTrie<S> = AsciiTrie<Ignore, S>;

impl<K, S> AsciiTrie<K, S> {
    /// Returns the trie over the bytes of this store. Does not validate them.
    pub fn from_store(store: S) -> Self {
        AsciiTrie {
            store,
            kind: PhantomData,
        }
    }

    /// Returns the store of the trie.
    pub fn into_store(self) -> S {
        let AsciiTrie { store, kind: _ } = self;
        store
    }
}

impl<K, S: TrieStore> AsciiTrie<K, S> {
    /// Returns the trie of the same bytes over another type of store. Does not allocate.
    ///
    /// ```
    /// # use zerotrie::{rstd::examples::*, zerotrie_ascii::*, zerotrie_core::*, zerotrie_build::*, zerotrie_any::*};
    /// let trie = ZeroTrieSimpleAscii::from_bytes(b"abc\x85");
    /// let shared: ZeroTrieSimpleAscii<CowSlice<'_, u8>> = trie.convert_store();
    /// assert_eq!(shared.get(b"abc"), Some(5));
    /// # Ok::<(), Fail>(())
    /// ```
    pub fn convert_store<X: ConvertStore<S>>(self) -> AsciiTrie<K, X> {
        AsciiTrie::from_store(X::convert(self.into_store()))
    }

    /// Returns whether there are no bytes, as in a trie with no keys.
    pub fn is_empty(&self) -> bool {
        self.as_bytes().is_empty()
    }

    /// Returns the number of bytes.
    pub fn byte_len(&self) -> usize {
        self.as_bytes().len()
    }

    /// Returns the bytes of the trie.
    pub fn as_bytes(&self) -> &[u8] {
        self.store.bytes()
    }

    /// Returns the same trie, which borrows these bytes.
    pub fn as_borrowed(&self) -> AsciiTrie<K, &[u8]> {
        AsciiTrie::from_bytes(self.as_bytes())
    }

    /// Returns the same trie, which borrows these bytes, as `as_borrowed` does.
    pub fn as_borrowed_slice(&self) -> AsciiTrie<K, &[u8]> {
        self.as_borrowed()
    }

    /// Returns the same trie over a copy of its bytes.
    ///
    /// ```
    /// # use zerotrie::{rstd::examples::*, zerotrie_ascii::*, zerotrie_core::*, zerotrie_build::*, zerotrie_any::*};
    /// let trie = ZeroTrieSimpleAscii::from_bytes(b"abc\x85");
    /// assert_eq!(trie.to_owned(Global)?.get(b"abc"), Some(5));
    /// # Ok::<(), Fail>(())
    /// ```
    ///
    /// An error means that an allocation failed.
    pub fn to_owned(&self, alloc: Global) -> Result<AsciiTrie<K, Vec<u8>>, AllocError> {
        let store = Vec::from_slice(alloc, self.as_bytes())?;
        Ok(AsciiTrie::from_store(store))
    }
}

impl<K: AsciiKind, S: TrieStore> Trie for AsciiTrie<K, S> {
    #[inline(always)]
    fn trie_kind(&self) -> TrieKind {
        ZeroTrieBuilderOptions::of::<K>().kind()
    }

    #[inline(always)]
    fn as_bytes(&self) -> &[u8] {
        self.store.bytes()
    }
}

impl<K: AsciiKind, S: TrieStore> AsciiTrie<K, S> {
    /// Returns the value of the key, or `None` if the trie does not have it. Does not allocate.
    ///
    /// ```
    /// # use zerotrie::{rstd::examples::*, zerotrie_ascii::*, zerotrie_core::*, zerotrie_build::*, zerotrie_any::*};
    /// let trie = ZeroTrieSimpleAscii::from_bytes(b"abc\x85");
    /// assert_eq!(trie.get(b"abc"), Some(5));
    /// assert_eq!(trie.get(b"ab"), None);
    /// # Ok::<(), Fail>(())
    /// ```
    ///
    /// On malformed bytes the result is unspecified; it never panics or reads outside them.
    ///
    /// `get` is inlined at every call site (about 3 KB), and so are `get_str`, `contains_key` and a
    /// cursor's `step`. To have its code once, call it from a function of your own that is
    /// `#[inline(never)]`.
    #[inline(always)]
    pub fn get(&self, key: &[u8]) -> Option<usize> {
        get::<K>(self.as_bytes(), key)
    }
}

impl<S> ZeroTrieSimpleAscii<S> {
    /// Returns the same trie as a `ZeroTrie`.
    pub fn into_zerotrie(self) -> ZeroTrie<S> {
        ZeroTrie::of_kind::<Simple>(self.into_store())
    }
}

impl<'a, K> AsciiTrie<K, &'a [u8]> {
    /// Returns the trie over these bytes. Does not validate them.
    ///
    /// ```
    /// # use zerotrie::{rstd::examples::*, zerotrie_ascii::*, zerotrie_core::*, zerotrie_build::*, zerotrie_any::*};
    /// let trie = ZeroTrieSimpleAscii::from_bytes(b"in\x83to\x84");
    /// assert_eq!(trie.get(b"into"), Some(4));
    /// # Ok::<(), Fail>(())
    /// ```
    pub fn from_bytes(bytes: &'a [u8]) -> Self {
        AsciiTrie::from_store(bytes)
    }
}

impl<'a, K: AsciiKind> AsciiTrie<K, &'a [u8]> {
    /// Returns the trie with no keys. Does not allocate.
    ///
    /// ```
    /// # use zerotrie::{rstd::examples::*, zerotrie_ascii::*, zerotrie_core::*, zerotrie_build::*, zerotrie_any::*};
    /// assert_eq!(ZeroTrieSimpleAscii::empty().get(b""), None);
    /// # Ok::<(), Fail>(())
    /// ```
    pub fn empty() -> Self {
        AsciiTrie::from_bytes(&[])
    }
}

impl<K: AsciiKind> AsciiTrie<K, Vec<u8>> {
    /// Returns the length in bytes of the trie of a slice, whose keys must ascend strictly by their
    /// bytes. Does not build it.
    ///
    /// ```
    /// # use zerotrie::{rstd::examples::*, zerotrie_ascii::*, zerotrie_core::*, zerotrie_build::*, zerotrie_any::*};
    /// let items: [(&[u8], usize); 2] = [(b"ad", 22), (b"adef", 33)];
    /// assert_eq!(ZeroTrieSimpleAscii::encoded_len(Global, &items)?, 8);
    /// # Ok::<(), Fail>(())
    /// ```
    ///
    /// Errors: `Unsorted`, `NonAsciiError`, `MixedCase` (if case is ignored), `CapacityExceeded`,
    /// `OutOfMemory`; see `ZeroTrieBuildError`.
    pub fn encoded_len(alloc: Global, items: &[(&[u8], usize)]) -> Result<usize, ZeroTrieBuildError> {
        let items = ByteSliceWithIndices::from_byte_slice(items);
        encoded_len(alloc, items, ZeroTrieBuilderOptions::of::<K>())
    }

    /// Returns the length in bytes of the trie of a slice, as `encoded_len` does, for `str` keys.
    ///
    /// ```
    /// # use zerotrie::{rstd::examples::*, zerotrie_ascii::*, zerotrie_core::*, zerotrie_build::*, zerotrie_any::*};
    /// let items = [("ad", 22), ("adef", 33)];
    /// assert_eq!(ZeroTrieSimpleAscii::encoded_len_str(Global, &items)?, 8);
    /// # Ok::<(), Fail>(())
    /// ```
    pub fn encoded_len_str(
        alloc: Global,
        items: &[(&str, usize)],
    ) -> Result<usize, ZeroTrieBuildError> {
        let items = ByteSliceWithIndices::from_str_slice(items);
        encoded_len(alloc, items, ZeroTrieBuilderOptions::of::<K>())
    }

    /// Builds the trie of a map with string keys, `&str` or `String`. An empty map gives an empty
    /// trie.
    ///
    /// ```
    /// # use zerotrie::{rstd::examples::*, zerotrie_ascii::*, zerotrie_core::*, zerotrie_build::*, zerotrie_any::*};
    /// let mut map: BTreeMap<&str, usize> = BTreeMap::new(Global);
    /// map.insert("ad", 22)?;
    /// let trie = ZeroTrieSimpleAscii::try_from_btree_map_str(Global, &map)?;
    /// assert_eq!(trie.get(b"ad"), Some(22));
    /// # Ok::<(), Fail>(())
    /// ```
    ///
    /// Errors: `NonAsciiError`, `MixedCase` (if case is ignored), `CapacityExceeded`,
    /// `OutOfMemory`; see `ZeroTrieBuildError`.
    pub fn try_from_btree_map_str<Key: TextKey>(
        alloc: Global,
        entries: &BTreeMap<Key, usize>,
    ) -> Result<Self, ZeroTrieBuildError> {
        Self::try_from_btree_map(alloc, entries)
    }

    /// Builds the trie of a map. An empty map gives an empty trie.
    ///
    /// Errors: `Unsorted` (never if the keys are ordered by their bytes, as byte and string keys
    /// are), `NonAsciiError`, `MixedCase` (if case is ignored), `CapacityExceeded`, `OutOfMemory`;
    /// see `ZeroTrieBuildError`.
    pub fn try_from_btree_map<Key: TrieKey + Ord>(
        alloc: Global,
        entries: &BTreeMap<Key, usize>,
    ) -> Result<Self, ZeroTrieBuildError> {
        let store = bytes_from_map::<K, Key>(alloc, entries)?;
        Ok(AsciiTrie::from_store(store))
    }

    /// Builds the trie of a slice, whose keys must ascend strictly by their bytes, also if case is
    /// ignored. An empty slice gives an empty trie.
    ///
    /// ```
    /// # use zerotrie::{rstd::examples::*, zerotrie_ascii::*, zerotrie_core::*, zerotrie_build::*, zerotrie_any::*};
    /// let items: [(&[u8], usize); 2] = [(b"ad", 22), (b"adef", 33)];
    /// let trie = ZeroTrieSimpleAscii::try_from_sorted_slice(Global, &items)?;
    /// assert_eq!(trie.get(b"adef"), Some(33));
    /// # Ok::<(), Fail>(())
    /// ```
    ///
    /// Errors: `Unsorted`, `NonAsciiError`, `MixedCase` (if case is ignored), `CapacityExceeded`,
    /// `OutOfMemory`; see `ZeroTrieBuildError`.
    pub fn try_from_sorted_slice(
        alloc: Global,
        items: &[(&[u8], usize)],
    ) -> Result<Self, ZeroTrieBuildError> {
        let store = bytes_from_slice::<K>(alloc, items)?;
        Ok(AsciiTrie::from_store(store))
    }

    /// Builds the trie of all pairs of an iterator, in any order. An empty iterator gives an empty
    /// trie.
    ///
    /// ```
    /// # use zerotrie::{rstd::examples::*, zerotrie_ascii::*, zerotrie_core::*, zerotrie_build::*, zerotrie_any::*};
    /// let trie = ZeroTrieSimpleAscii::try_from_iter(Global, [("xyz", 22), ("abc", 11)])?;
    /// assert_eq!(trie.get(b"abc"), Some(11));
    /// # Ok::<(), Fail>(())
    /// ```
    ///
    /// Errors: `DuplicateKey`, `NonAsciiError`, `MixedCase` (if case is ignored),
    /// `CapacityExceeded`, `OutOfMemory`; see `ZeroTrieBuildError`.
    pub fn try_from_iter<Key: TrieKey, U: IntoIterator<Item = (Key, usize)>>(
        alloc: Global,
        iter: U,
    ) -> Result<Self, ZeroTrieBuildError>
    where
    {
        let store = bytes_from_iter::<K, Key, U>(alloc, iter)?;
        Ok(AsciiTrie::from_store(store))
    }
}

impl<K, S: Copy> Clone for AsciiTrie<K, S> {
    fn clone(&self) -> Self {
        AsciiTrie::from_store(self.store)
    }
}

impl<K, S: Copy> Copy for AsciiTrie<K, S> {}

/// Prints the name of the kind and the number of bytes, as `ZeroTrieSimpleAscii(17 bytes)`.
impl<K: AsciiKind, S: TrieStore> fmt::Debug for AsciiTrie<K, S> {
    fn fmt(&self, f: &mut fmt::Formatter<'_>) -> fmt::Result {
        let name = if K::IGNORE_CASE {
            "ZeroAsciiIgnoreCaseTrie"
        } else {
            "ZeroTrieSimpleAscii"
        };
        write!(f, "{name}({} bytes)", self.byte_len())
    }
}

impl<'a, K> Default for AsciiTrie<K, &'a [u8]> {
    fn default() -> Self {
        AsciiTrie::from_bytes(&[])
    }
}

impl<K: AsciiKind, S: TrieStore> PartialEq for AsciiTrie<K, S> {
    fn eq(&self, other: &Self) -> bool {
        laws::equal_exactly_if_maps_are();
        self.as_bytes() == other.as_bytes()
    }
}

impl<K: AsciiKind, S: TrieStore> Eq for AsciiTrie<K, S> {}

/// A kind of trie over ASCII keys: `Simple` or `Ignore`. Each branch has a sorted table, so a map
/// has one encoding.
pub trait AsciiKind: ZeroTrieWithOptions {}

impl AsciiKind for Simple {}

impl AsciiKind for Ignore {}

impl<K: ZeroTrieWithOptions, S> ZeroTrieWithOptions for AsciiTrie<K, S> {
    const USE_PHF: bool = K::USE_PHF;

    const SPANS: bool = K::SPANS;

    const EXTENDED: bool = K::EXTENDED;

    const IGNORE_CASE: bool = K::IGNORE_CASE;

    const TAG: u8 = K::TAG;
}
