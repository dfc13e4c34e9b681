//! `ZeroTrie`, whose kind is a value, and what the types of tries share.

use crate::calls::calls;
use crate::listing::{
    Combination, Difference, Matches, Nearest, Reversed, Sorted, ZeroTrieIterator, ZeroTrieKeys, ZeroTrieValues, allocated,
};
use crate::look_ups::LookUps;
use crate::reverse::KeysByValue;
use crate::rstd::alloc::{AllocError, Global};
use crate::sealed::Sealed;
use crate::zerotrie_any::{LoadError, TagError, kind_for_pairs};
use crate::zerotrie_ascii;
use crate::zerotrie_core::{self, CommonPrefixes, Fault, TrieKind, ZeroTrieBuildError, ZeroTrieWithOptions};
use crate::zerotrie_hashed;
use crate::zerotrie_sealed::{self, SealError};
use crate::zerotrie_search::{Automaton, Both, Fuzzy, KeyRange, KindPrefix, Search};
use crate::zerotrie_sets::{Keep, Operation};
use crate::{ZeroTrieExtendedCapacity, ZeroTriePerfectHash, ZeroTrieSimpleAscii, by_kind};
use alloc::boxed::Box;
use alloc::collections::BTreeMap;
use alloc::vec::Vec;
use core::borrow::Borrow;
use core::ops::Bound;

/// A map from byte strings to numbers, of the kind that fits: below 512 ASCII keys a
/// [`ZeroTrieSimpleAscii`], else a [`ZeroTriePerfectHash`].
///
/// ```
/// use zerotrie::ZeroTrie;
///
/// let trie: ZeroTrie<Vec<u8>> = [("abc", 11), ("xyz", 22), ("axyb", 33)].into_iter().collect();
/// assert_eq!(trie.get("axyb"), Some(33));
/// assert_eq!(trie.byte_len(), 18);
/// ```
#[derive(Debug, Clone, Copy, PartialEq, Eq, Hash)]
pub struct ZeroTrie<Store>(pub(crate) Flavor<Store>);

/// The trie in a `ZeroTrie`.
#[derive(Debug, Clone, Copy, PartialEq, Eq, Hash)]
pub(crate) enum Flavor<Store> {
    SimpleAscii(ZeroTrieSimpleAscii<Store>),
    PerfectHash(ZeroTriePerfectHash<Store>),
    ExtendedCapacity(ZeroTrieExtendedCapacity<Store>),
}

/// Asks the trie in a `ZeroTrie`, whatever its kind.
macro_rules! ask {
    (&$zerotrie:ident, $trie:ident => $answer:expr) => {
        match &$zerotrie.0 {
            Flavor::SimpleAscii($trie) => $answer,
            Flavor::PerfectHash($trie) => $answer,
            Flavor::ExtendedCapacity($trie) => $answer,
        }
    };
    ($zerotrie:ident, $trie:ident => $answer:expr) => {
        match $zerotrie.0 {
            Flavor::SimpleAscii($trie) => $answer,
            Flavor::PerfectHash($trie) => $answer,
            Flavor::ExtendedCapacity($trie) => $answer,
        }
    };
}

impl<Store> ZeroTrie<Store> {
    /// Returns the store.
    ///
    /// ```
    /// use zerotrie::{ZeroTrie, ZeroTrieSimpleAscii};
    ///
    /// let trie = ZeroTrieSimpleAscii::from_store(b"abc\x85").into_zerotrie();
    /// assert_eq!(trie.into_store(), b"abc\x85");
    /// ```
    pub fn into_store(self) -> Store {
        ask!(self, trie => trie.into_store())
    }

    /// Converts the store.
    ///
    /// ```
    /// use std::borrow::Cow;
    /// use zerotrie::ZeroTrie;
    ///
    /// let trie = ZeroTrie::try_from_iter([("abc", 5)])?;
    /// let cow: ZeroTrie<Cow<[u8]>> = trie.convert_store();
    /// assert_eq!(cow.get("abc"), Some(5));
    /// # Ok::<(), zerotrie::ZeroTrieBuildError>(())
    /// ```
    pub fn convert_store<X: From<Store>>(self) -> ZeroTrie<X> {
        ask!(self, trie => trie.convert_store().into_zerotrie())
    }

    /// Makes a trie of a store and a kind. There is none that ignores case.
    pub(crate) fn of_kind(kind: TrieKind, store: Store) -> Option<Self> {
        match kind {
            TrieKind::Simple => Some(ZeroTrieSimpleAscii::from_store(store).into_zerotrie()),
            TrieKind::Hash => Some(ZeroTriePerfectHash::from_store(store).into_zerotrie()),
            TrieKind::Ext => Some(ZeroTrieExtendedCapacity::from_store(store).into_zerotrie()),
            TrieKind::Ignore => None,
        }
    }
}

impl<Store: AsRef<[u8]>> ZeroTrie<Store> {
    /// Returns the value of a key.
    ///
    /// ```
    /// use zerotrie::ZeroTrie;
    ///
    /// let trie = ZeroTrie::try_from_iter([("in", 1), ("into", 2)])?;
    /// assert_eq!(trie.get("into"), Some(2));
    /// assert_eq!(trie.get(b"int"), None);
    /// # Ok::<(), zerotrie::ZeroTrieBuildError>(())
    /// ```
    pub fn get<K: AsRef<[u8]>>(&self, key: K) -> Option<usize> {
        ask!(&self, trie => trie.get(key))
    }

    /// Returns whether the trie has no bytes, and so no pairs.
    ///
    /// ```
    /// use zerotrie::ZeroTrie;
    ///
    /// assert!(ZeroTrie::try_from_iter([("", 0); 0])?.is_empty());
    /// # Ok::<(), zerotrie::ZeroTrieBuildError>(())
    /// ```
    pub fn is_empty(&self) -> bool {
        self.as_bytes().is_empty()
    }

    /// Returns the number of bytes. [`count`](Self::count) is that of the pairs.
    ///
    /// ```
    /// use zerotrie::ZeroTrie;
    ///
    /// assert_eq!(ZeroTrie::try_from_iter([("abc", 5)])?.byte_len(), 4);
    /// # Ok::<(), zerotrie::ZeroTrieBuildError>(())
    /// ```
    pub fn byte_len(&self) -> usize {
        self.as_bytes().len()
    }

    /// Returns the bytes.
    ///
    /// ```
    /// use zerotrie::ZeroTrie;
    ///
    /// assert_eq!(ZeroTrie::try_from_iter([("abc", 5)])?.as_bytes(), b"abc\x85");
    /// # Ok::<(), zerotrie::ZeroTrieBuildError>(())
    /// ```
    pub fn as_bytes(&self) -> &[u8] {
        ask!(&self, trie => trie.as_bytes())
    }

    /// Returns the kind.
    ///
    /// ```
    /// use zerotrie::{TrieKind, ZeroTrie};
    ///
    /// assert_eq!(ZeroTrie::try_from_iter([("abc", 5)])?.kind(), TrieKind::Simple);
    /// assert_eq!(ZeroTrie::try_from_iter([("åbc", 5)])?.kind(), TrieKind::Hash);
    /// # Ok::<(), zerotrie::ZeroTrieBuildError>(())
    /// ```
    pub fn kind(&self) -> TrieKind {
        ask!(&self, trie => trie.kind())
    }

    /// Returns the same trie over a borrowed slice of bytes.
    ///
    /// ```
    /// use zerotrie::ZeroTrie;
    ///
    /// let trie = ZeroTrie::try_from_iter([("abc", 5)])?;
    /// let borrowed: ZeroTrie<&[u8]> = trie.as_borrowed_slice();
    /// assert_eq!(borrowed.get("abc"), Some(5));
    /// # Ok::<(), zerotrie::ZeroTrieBuildError>(())
    /// ```
    pub fn as_borrowed_slice(&self) -> ZeroTrie<&[u8]> {
        ask!(&self, trie => trie.as_borrowed_slice().into_zerotrie())
    }

    /// Returns the same trie over a copy of its bytes.
    ///
    /// ```
    /// use zerotrie::ZeroTrie;
    ///
    /// let trie = ZeroTrie::try_from_iter([("abc", 5)])?;
    /// let owned: ZeroTrie<Vec<u8>> = trie.as_borrowed_slice().to_owned();
    /// assert_eq!(owned.get("abc"), Some(5));
    /// # Ok::<(), zerotrie::ZeroTrieBuildError>(())
    /// ```
    pub fn to_owned(&self) -> ZeroTrie<Vec<u8>> {
        ask!(&self, trie => trie.to_owned().into_zerotrie())
    }

    /// Lists the pairs in the order of the bytes.
    ///
    /// ```
    /// use zerotrie::ZeroTrie;
    ///
    /// let trie = ZeroTrie::try_from_iter([("in", 1), ("into", 2)])?;
    /// let mut pairs = trie.iter();
    /// assert_eq!(pairs.next(), Some((b"in".to_vec(), 1)));
    /// # Ok::<(), zerotrie::ZeroTrieBuildError>(())
    /// ```
    pub fn iter(&self) -> ZeroTrieIterator<'_> {
        self.stream()
    }

    /// Lists the pairs whose keys begin with a prefix.
    ///
    /// ```
    /// use zerotrie::ZeroTrie;
    ///
    /// let trie = ZeroTrie::try_from_iter([("in", 1), ("into", 2)])?;
    /// let mut pairs = trie.iter_prefix("int");
    /// assert_eq!(pairs.next(), Some((b"into".to_vec(), 2)));
    /// # Ok::<(), zerotrie::ZeroTrieBuildError>(())
    /// ```
    pub fn iter_prefix<K: AsRef<[u8]>>(&self, prefix: K) -> ZeroTrieIterator<'_> {
        self.stream_prefix(prefix)
    }

    /// Lists the keys in the order of the bytes.
    ///
    /// ```
    /// use zerotrie::ZeroTrie;
    ///
    /// let trie = ZeroTrie::try_from_iter([("in", 1), ("into", 2)])?;
    /// assert_eq!(trie.keys().collect::<Vec<_>>(), [b"in".to_vec(), b"into".to_vec()]);
    /// # Ok::<(), zerotrie::ZeroTrieBuildError>(())
    /// ```
    pub fn keys(&self) -> ZeroTrieKeys<'_> {
        ZeroTrieKeys(self.stream())
    }

    /// Returns the pairs in a `BTreeMap`.
    ///
    /// ```
    /// use zerotrie::ZeroTrie;
    ///
    /// let trie = ZeroTrie::try_from_iter([("in", 1), ("into", 2)])?;
    /// assert_eq!(trie.to_btreemap().get(b"into".as_slice()), Some(&2));
    /// # Ok::<(), zerotrie::ZeroTrieBuildError>(())
    /// ```
    pub fn to_btreemap(&self) -> BTreeMap<Box<[u8]>, usize> {
        self.iter().map(|(key, value)| (key.into_boxed_slice(), value)).collect()
    }
}

impl ZeroTrie<Vec<u8>> {
    fn of_sorted<K: AsRef<[u8]>>(pairs: &[(K, usize)]) -> Result<Self, ZeroTrieBuildError> {
        Ok(match kind_for_pairs(pairs) {
            TrieKind::Simple => ZeroTrieSimpleAscii::try_from_sorted_slice(pairs)?.into_zerotrie(),
            TrieKind::Ignore | TrieKind::Hash | TrieKind::Ext => {
                ZeroTriePerfectHash::try_from_sorted_slice(pairs)?.into_zerotrie()
            }
        })
    }

    fn of_pairs(pairs: &[(&[u8], usize)]) -> Result<Self, ZeroTrieBuildError> {
        Ok(match kind_for_pairs(pairs) {
            TrieKind::Simple => ZeroTrieSimpleAscii::of_pairs(pairs)?.into_zerotrie(),
            TrieKind::Ignore | TrieKind::Hash | TrieKind::Ext => ZeroTriePerfectHash::of_pairs(pairs)?.into_zerotrie(),
        })
    }
}

impl<'a, K: Borrow<[u8]>> TryFrom<&'a BTreeMap<K, usize>> for ZeroTrie<Vec<u8>> {
    type Error = ZeroTrieBuildError;

    fn try_from(map: &'a BTreeMap<K, usize>) -> Result<Self, ZeroTrieBuildError> {
        Self::of_pairs(&map.iter().map(|(key, value)| (key.borrow(), *value)).collect::<Vec<_>>())
    }
}

/// Lists the pairs, as `iter` does.
impl<'a, Store: AsRef<[u8]>> IntoIterator for &'a ZeroTrie<Store> {
    type Item = (Vec<u8>, usize);
    type IntoIter = ZeroTrieIterator<'a>;

    fn into_iter(self) -> ZeroTrieIterator<'a> {
        self.iter()
    }
}

impl<Store: AsRef<[u8]>> From<&ZeroTrie<Store>> for BTreeMap<Box<[u8]>, usize> {
    fn from(trie: &ZeroTrie<Store>) -> Self {
        trie.to_btreemap()
    }
}

calls!(ZeroTrie, Sized);

pub(crate) mod sealed {
    /// Only the types of this crate are tries.
    pub trait Sealed {}
}

/// A trie of any type, over any store. No other types can implement this.
///
/// ```
/// use zerotrie::{Trie, TrieKind, ZeroTriePerfectHash};
///
/// fn kind_of(trie: &dyn Trie) -> TrieKind {
///     trie.kind()
/// }
/// assert_eq!(kind_of(&ZeroTriePerfectHash::from_store(b"a\x85")), TrieKind::Hash);
/// ```
pub trait Trie: sealed::Sealed {
    /// Returns the kind.
    ///
    /// ```
    /// use zerotrie::{Trie, TrieKind, ZeroTrieSimpleAscii};
    ///
    /// let trie: &dyn Trie = &ZeroTrieSimpleAscii::from_store(b"a\x85");
    /// assert_eq!(trie.kind(), TrieKind::Simple);
    /// ```
    fn kind(&self) -> TrieKind;

    /// Returns the bytes.
    ///
    /// ```
    /// use zerotrie::{Trie, ZeroTrieSimpleAscii};
    ///
    /// let trie: &dyn Trie = &ZeroTrieSimpleAscii::from_store(b"a\x85");
    /// assert_eq!(trie.as_bytes(), b"a\x85");
    /// ```
    fn as_bytes(&self) -> &[u8];
}

/// Borrows the keys of pairs.
pub(crate) fn lent<K: AsRef<[u8]>>(pairs: &[(K, usize)]) -> Vec<(&[u8], usize)> {
    pairs.iter().map(|(key, value)| (key.as_ref(), *value)).collect()
}

/// Returns the pairs if their keys ascend by their bytes.
pub(crate) fn ascending<K: AsRef<[u8]>>(pairs: &[(K, usize)]) -> Result<&[(K, usize)], ZeroTrieBuildError> {
    let ascend = pairs.is_sorted_by(|(before, _), (key, _)| before.as_ref() < key.as_ref());
    ascend.then_some(pairs).ok_or(ZeroTrieBuildError::Unsorted)
}

/// Lists all pairs of a trie in ascending order.
pub(crate) fn sorted<T: Trie + ?Sized>(trie: &T) -> Sorted<'_, 'static> {
    Sorted::of(trie.kind(), trie.as_bytes(), KeyRange { from: Bound::Unbounded, to: Bound::Unbounded })
}

/// Returns the first pair from a bound on.
#[inline]
pub(crate) fn first(kind: TrieKind, bytes: &[u8], from: Bound<&[u8]>) -> Option<(Vec<u8>, usize)> {
    Sorted::of(kind, bytes, KeyRange { from, to: Bound::Unbounded }).next()
}

/// Returns the last pair between two bounds.
#[inline]
pub(crate) fn last(kind: TrieKind, bytes: &[u8], bounds: KeyRange<'_>) -> Option<(Vec<u8>, usize)> {
    let KeyRange { from, to } = bounds;
    let last = match kind {
        TrieKind::Simple => zerotrie_ascii::ZeroTrieSimpleAscii::from_bytes(bytes).last_within(Global, from, to),
        TrieKind::Ignore => zerotrie_ascii::ZeroAsciiIgnoreCaseTrie::from_bytes(bytes).last_within(Global, from, to),
        TrieKind::Hash => zerotrie_hashed::ZeroTriePerfectHash::from_bytes(bytes).last_within(Global, from, to),
        TrieKind::Ext => zerotrie_hashed::ZeroTrieExtendedCapacity::from_bytes(bytes).last_within(Global, from, to),
    };
    allocated(last).map(|(key, value)| (key.into_inner(), value))
}

/// Returns the first fault in the bytes of a trie.
#[inline]
pub(crate) fn fault(kind: TrieKind, bytes: &[u8]) -> Option<Fault> {
    fn fault_of<K: ZeroTrieWithOptions>(bytes: &[u8]) -> Result<Option<Fault>, AllocError> {
        zerotrie_core::first_fault::<K, _>(Global, bytes)
    }
    allocated(by_kind!(kind, fault_of::<_>(bytes)))
}

/// Returns the number of the kind, followed by the bytes.
pub(crate) fn tagged(kind: TrieKind, bytes: &[u8]) -> Vec<u8> {
    [&[kind.tag()], bytes].concat()
}
