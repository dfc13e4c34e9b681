// Made from crates/zerotrie_index/src/index.rt by rust/make: edit that.
//! The type of an index.

use crate::rstd::prelude::*;
use crate::zerotrie_index::builder::{build, build_all, build_sorted};
use crate::zerotrie_index::error::{NotAnIndex, ZeroIndexBuildError};
use crate::zerotrie_index::opened::OpenedIndex;
use crate::zerotrie_index::well_formed::is_well_formed;
use crate::rstd::alloc::{AllocError, Global};
use crate::zerotrie_base::{ConvertStore, TrieKey, TrieStore};

/// A map from byte strings to numbers for exact look-ups, as a sequence of bytes that is read in
/// place.
///
/// ```
/// # use zerotrie::{rstd::examples::*, zerotrie_index::*, zerotrie_base::*, zerotrie_core::*, zerotrie_sealed::*};
/// let index = ZeroIndex::try_from_sorted_slice(Global, &[("ad", 22), ("adef", 33)])?;
/// assert_eq!(index.get(b"adef"), Some(33));
/// assert_eq!(index.get(b"ade"), None);
/// # Ok::<(), Fail>(())
/// ```
///
/// Any store of bytes can be an index. On malformed bytes results are unspecified; no call panics
/// or reads outside them. `try_from_bytes` takes none but those of an index.
pub struct ZeroIndex<S> {
    /// The bytes of the index.
    pub store: S,
}

impl ZeroIndex<Vec<u8>> {
    /// Builds the index of a slice, whose keys must strictly ascend by their bytes.
    ///
    /// ```
    /// # use zerotrie::{rstd::examples::*, zerotrie_index::*, zerotrie_base::*, zerotrie_core::*, zerotrie_sealed::*};
    /// let unsorted = [("to", 1), ("in", 2)];
    /// let built = ZeroIndex::try_from_sorted_slice(Global, &unsorted);
    /// assert!(matches!(built, Err(ZeroIndexBuildError::Unsorted)));
    /// # Ok::<(), Fail>(())
    /// ```
    ///
    /// Errors: `Unsorted`, `Crowded`, `CapacityExceeded`, `OutOfMemory`; see `ZeroIndexBuildError`.
    pub fn try_from_sorted_slice<K: TrieKey>(
        alloc: Global,
        items: &[(K, usize)],
    ) -> Result<Self, ZeroIndexBuildError> {
        match build_sorted(alloc, 0, items) {
            Ok(store) => Ok(ZeroIndex { store }),
            Err(error) => Err(error),
        }
    }

    /// Builds the index of a slice in any order, whose keys must be distinct.
    ///
    /// ```
    /// # use zerotrie::{rstd::examples::*, zerotrie_index::*, zerotrie_base::*, zerotrie_core::*, zerotrie_sealed::*};
    /// let index = ZeroIndex::try_from_unsorted_slice(Global, &[("to", 1), ("in", 2)])?;
    /// assert_eq!(index.get(b"in"), Some(2));
    /// # Ok::<(), Fail>(())
    /// ```
    ///
    /// Errors: `DuplicateKey`, `Crowded`, `CapacityExceeded`, `OutOfMemory`; see
    /// `ZeroIndexBuildError`.
    pub fn try_from_unsorted_slice<K: TrieKey>(
        alloc: Global,
        items: &[(K, usize)],
    ) -> Result<Self, ZeroIndexBuildError> {
        ZeroIndex::try_from_seed(alloc, 0, items)
    }

    /// Builds the index of a slice in any order, and tries seeds from this one on. Who does not
    /// know the seed can't choose keys that make the build return `Crowded`.
    ///
    /// ```
    /// # use zerotrie::{rstd::examples::*, zerotrie_index::*, zerotrie_base::*, zerotrie_core::*, zerotrie_sealed::*};
    /// let index = ZeroIndex::try_from_seed(Global, 0x5EED, &[("to", 1), ("in", 2)])?;
    /// assert_eq!(index.get(b"to"), Some(1));
    /// # Ok::<(), Fail>(())
    /// ```
    ///
    /// The errors are those of `try_from_unsorted_slice`.
    pub fn try_from_seed<K: TrieKey>(
        alloc: Global,
        seed: u64,
        items: &[(K, usize)],
    ) -> Result<Self, ZeroIndexBuildError> {
        match build(alloc, seed, items) {
            Ok(store) => Ok(ZeroIndex { store }),
            Err(error) => Err(error),
        }
    }

    /// Builds the index of all pairs of an iterator, in any order. Holds them all until the build
    /// is done.
    ///
    /// ```
    /// # use zerotrie::{rstd::examples::*, zerotrie_index::*, zerotrie_base::*, zerotrie_core::*, zerotrie_sealed::*};
    /// let index = ZeroIndex::try_from_iter(Global, [("to", 1), ("in", 2)])?;
    /// assert_eq!(index.get(b"in"), Some(2));
    /// let twice = ZeroIndex::try_from_iter(Global, [("to", 1), ("to", 1)]);
    /// assert!(matches!(twice, Err(ZeroIndexBuildError::DuplicateKey)));
    /// # Ok::<(), Fail>(())
    /// ```
    ///
    /// The errors are those of `try_from_unsorted_slice`.
    pub fn try_from_iter<K: TrieKey, U: IntoIterator<Item = (K, usize)>>(
        alloc: Global,
        iter: U,
    ) -> Result<Self, ZeroIndexBuildError>
    where
    {
        match build_all(alloc, 0, iter) {
            Ok(store) => Ok(ZeroIndex { store }),
            Err(error) => Err(error),
        }
    }
}

impl<S: TrieStore> ZeroIndex<S> {
    /// Takes bytes as an index. Does not validate them.
    ///
    /// ```
    /// # use zerotrie::{rstd::examples::*, zerotrie_index::*, zerotrie_base::*, zerotrie_core::*, zerotrie_sealed::*};
    /// let index = ZeroIndex::try_from_sorted_slice(Global, &[("ad", 22)])?;
    /// let shipped = ZeroIndex::from_bytes(index.as_bytes());
    /// assert_eq!(shipped.get(b"ad"), Some(22));
    /// # Ok::<(), Fail>(())
    /// ```
    pub fn from_bytes(store: S) -> Self {
        ZeroIndex { store }
    }

    /// Takes bytes as an index if they are one.
    ///
    /// ```
    /// # use zerotrie::{rstd::examples::*, zerotrie_index::*, zerotrie_base::*, zerotrie_core::*, zerotrie_sealed::*};
    /// let index = ZeroIndex::try_from_sorted_slice(Global, &[("ad", 22)])?;
    /// let shipped = ZeroIndex::try_from_bytes(index.as_bytes())?;
    /// assert_eq!(shipped.get(b"ad"), Some(22));
    /// assert!(ZeroIndex::try_from_bytes(b"no index".as_slice()).is_err());
    /// # Ok::<(), Fail>(())
    /// ```
    ///
    /// The error is `NotAnIndex` exactly if they aren't. Does not allocate, and reads each byte a
    /// bounded number of times.
    pub fn try_from_bytes(store: S) -> Result<Self, NotAnIndex>
    where
    {
        if is_well_formed(store.bytes()) {
            Ok(ZeroIndex { store })
        } else {
            Err(NotAnIndex)
        }
    }

    /// Returns whether the bytes are an index of some pairs. Does not allocate.
    pub fn is_well_formed(&self) -> bool {
        is_well_formed(self.store.bytes())
    }

    /// Returns the bytes.
    pub fn as_bytes(&self) -> &[u8] {
        self.store.bytes()
    }

    /// Opens the index for many look-ups. Does not allocate.
    ///
    /// ```
    /// # use zerotrie::{rstd::examples::*, zerotrie_index::*, zerotrie_base::*, zerotrie_core::*, zerotrie_sealed::*};
    /// let index = ZeroIndex::try_from_sorted_slice(Global, &[("ad", 22)])?;
    /// let opened = index.opened();
    /// assert_eq!((opened.get(b"ad"), opened.get(b"a")), (Some(22), None));
    /// # Ok::<(), Fail>(())
    /// ```
    pub fn opened(&self) -> OpenedIndex<'_> {
        OpenedIndex::new(self.store.bytes())
    }

    /// Returns the value of a key. For many keys, ask an `OpenedIndex`.
    pub fn get(&self, key: &[u8]) -> Option<usize> {
        self.opened().get(key)
    }

    /// Returns whether a key is there.
    ///
    /// ```
    /// # use zerotrie::{rstd::examples::*, zerotrie_index::*, zerotrie_base::*, zerotrie_core::*, zerotrie_sealed::*};
    /// let index = ZeroIndex::try_from_sorted_slice(Global, &[("ad", 22)])?;
    /// assert!(index.contains_key(b"ad") && !index.contains_key(b"a"));
    /// # Ok::<(), Fail>(())
    /// ```
    pub fn contains_key(&self, key: &[u8]) -> bool {
        self.get(key).is_some()
    }

    /// Returns the index of the same bytes over another type of store. Does not allocate.
    ///
    /// ```
    /// # use zerotrie::{rstd::examples::*, zerotrie_index::*, zerotrie_base::*, zerotrie_core::*, zerotrie_sealed::*};
    /// let index = ZeroIndex::try_from_sorted_slice(Global, &[("ad", 22)])?;
    /// let shared: ZeroIndex<CowSlice<'_, u8>> = index.convert_store();
    /// assert_eq!(shared.get(b"ad"), Some(22));
    /// # Ok::<(), Fail>(())
    /// ```
    pub fn convert_store<X: ConvertStore<S>>(self) -> ZeroIndex<X> {
        ZeroIndex {
            store: X::convert(self.store),
        }
    }

    /// Returns the index of these bytes, borrowed.
    pub fn as_borrowed(&self) -> ZeroIndex<&[u8]> {
        ZeroIndex {
            store: self.store.bytes(),
        }
    }

    /// Returns a copy of the index that owns its bytes.
    ///
    /// An error means that an allocation failed.
    pub fn to_owned(&self, alloc: Global) -> Result<ZeroIndex<Vec<u8>>, AllocError> {
        let store = Vec::from_slice(alloc, self.store.bytes())?;
        Ok(ZeroIndex { store })
    }
}
