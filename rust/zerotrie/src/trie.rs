//! The types of tries whose kind is in the type.

use crate::any::{Trie, ascending, fault, first, last, lent, sorted, tagged};
use crate::by_kind;
use crate::calls::calls;
use crate::listing::{
    Combination, Difference, Matches, Nearest, Reversed, Sorted, ZeroTrieIterator, ZeroTrieKeys, ZeroTrieStringIterator,
    ZeroTrieStringKeys, ZeroTrieValues, allocated,
};
use crate::look_ups::LookUps;
use crate::reverse::KeysByValue;
use crate::rstd::alloc::Global;
use crate::rstd::collections::VecDeque;
use crate::sealed::Sealed;
use crate::zerotrie_any::{self, LoadError, NotWellFormed, TagError};
use crate::zerotrie_build::{Refusal, build_ascending, len_ascending, why_iter_refused, why_slice_refused};
use crate::zerotrie_core::{self, CommonPrefixes, Ext, Fault, Hash, Ignore, Simple, TrieKind, ZeroTrieBuildError};
use crate::zerotrie_sealed::{self, SealError};
use crate::zerotrie_search::{Automaton, Both, Fuzzy, KeyRange, KindPrefix};
use crate::zerotrie_sets::{Keep, Operation};
use crate::{ZeroTrie, any};
use alloc::borrow::ToOwned;
use alloc::boxed::Box;
use alloc::collections::BTreeMap;
use alloc::string::String;
use alloc::vec::Vec;
use core::borrow::Borrow;
use core::ops::Bound;

/// A map from ASCII strings to numbers: the most compact one. Lists its pairs in ascending order.
///
/// ```
/// use zerotrie::ZeroTrieSimpleAscii;
///
/// let trie: ZeroTrieSimpleAscii<Vec<u8>> = [("foo", 1), ("bar", 2), ("bazzoo", 3)].into_iter().collect();
/// assert_eq!(trie.get("bar"), Some(2));
/// assert_eq!(trie.get("unknown"), None);
/// assert_eq!(trie.byte_len(), 17);
/// ```
///
/// Two of one map have the same bytes. One can be built in a constant:
/// [`from_sorted_str_tuples`](ZeroTrieSimpleAscii::from_sorted_str_tuples).
#[repr(transparent)]
#[derive(Debug, Default, Clone, Copy, PartialEq, Eq, Hash)]
pub struct ZeroTrieSimpleAscii<Store: ?Sized> {
    #[doc(hidden)]
    pub store: Store,
}

/// A map from ASCII strings to numbers whose look-ups ignore case.
///
/// ```
/// use zerotrie::{ZeroAsciiIgnoreCaseTrie, ZeroTrieBuildError};
///
/// let trie: ZeroAsciiIgnoreCaseTrie<Vec<u8>> = [("Foo", 1), ("bar", 2)].into_iter().collect();
/// assert_eq!(trie.get("FOO"), Some(1));
///
/// // At the first byte where two keys differ, they may not differ in case alone.
/// let mixed = ZeroAsciiIgnoreCaseTrie::try_from_iter([("bar", 1), ("baR", 2)]);
/// assert_eq!(mixed, Err(ZeroTrieBuildError::MixedCase));
/// ```
#[repr(transparent)]
#[derive(Debug, Default, Clone, Copy, PartialEq, Eq, Hash)]
pub struct ZeroAsciiIgnoreCaseTrie<Store: ?Sized> {
    #[doc(hidden)]
    pub store: Store,
}

/// A map from byte strings to numbers. Large branches are hashed, so its pairs are listed in no
/// useful order.
///
/// ```
/// use zerotrie::ZeroTriePerfectHash;
///
/// let trie: ZeroTriePerfectHash<Vec<u8>> = [("bår", 2), ("båzzøø", 3)].into_iter().collect();
/// assert_eq!(trie.get("båzzøø"), Some(3));
/// assert_eq!(trie.get("bazzoo"), None);
/// ```
#[repr(transparent)]
#[derive(Debug, Default, Clone, Copy, PartialEq, Eq, Hash)]
pub struct ZeroTriePerfectHash<Store: ?Sized> {
    #[doc(hidden)]
    pub store: Store,
}

/// A map from byte strings to numbers that may have more than 4 GB.
///
/// ```
/// use zerotrie::ZeroTrieExtendedCapacity;
///
/// let trie: ZeroTrieExtendedCapacity<Vec<u8>> = [("foo", 1)].into_iter().collect();
/// assert_eq!(trie.get("foo"), Some(1));
/// ```
#[repr(transparent)]
#[derive(Debug, Default, Clone, Copy, PartialEq, Eq, Hash)]
pub struct ZeroTrieExtendedCapacity<Store: ?Sized> {
    #[doc(hidden)]
    pub store: Store,
}

/// Gives a type the crate's calls, and those that need its kind.
macro_rules! kind {
    ($name:ident, $kind:ident, $key:ty, $iter:ident($($wrapped:tt)*), $keys:ident) => {
        impl<Store> $name<Store> {
            /// Makes a trie of a store, whose bytes are not validated.
            ///
            /// ```
            #[doc = concat!("use zerotrie::", stringify!($name), ";")]
            ///
            #[doc = concat!("static TRIE: ", stringify!($name), "<&[u8]> = ", stringify!($name), "::from_store(b\"abc\\x85\");")]
            /// assert_eq!(TRIE.get("abc"), Some(5));
            /// ```
            ///
            /// On malformed bytes each call returns, and its result is unspecified.
            #[inline]
            pub const fn from_store(store: Store) -> Self {
                Self { store }
            }

            /// Returns the store.
            ///
            /// ```
            #[doc = concat!("use zerotrie::", stringify!($name), ";")]
            ///
            #[doc = concat!("assert_eq!(", stringify!($name), "::from_store([b'a', 0x85]).into_store(), [b'a', 0x85]);")]
            /// ```
            #[inline]
            pub fn into_store(self) -> Store {
                self.store
            }

            /// Converts the store.
            ///
            /// ```
            /// use std::borrow::Cow;
            #[doc = concat!("use zerotrie::", stringify!($name), ";")]
            ///
            #[doc = concat!("let trie = ", stringify!($name), "::try_from_iter([(\"abc\", 5)])?;")]
            #[doc = concat!("let cow: ", stringify!($name), "<Cow<[u8]>> = trie.convert_store();")]
            /// assert_eq!(cow.get("abc"), Some(5));
            /// # Ok::<(), zerotrie::ZeroTrieBuildError>(())
            /// ```
            pub fn convert_store<X: From<Store>>(self) -> $name<X> {
                $name::from_store(X::from(self.store))
            }
        }

        impl<Store: AsRef<[u8]>> $name<Store> {
            /// Makes a trie of a store whose bytes are validated: each is read once.
            ///
            /// ```
            #[doc = concat!("use zerotrie::", stringify!($name), ";")]
            ///
            #[doc = concat!("assert!(", stringify!($name), "::try_from_store(vec![b'a', 0x85]).is_ok());")]
            #[doc = concat!("assert!(", stringify!($name), "::try_from_store(vec![b'a']).is_err());")]
            /// ```
            pub fn try_from_store(store: Store) -> Result<Self, NotWellFormed> {
                let trie = Self { store };
                if trie.is_well_formed() { Ok(trie) } else { Err(NotWellFormed) }
            }

            /// Makes a trie of a store, if the kind is this type's.
            pub(crate) fn of_kind(kind: TrieKind, store: Store) -> Option<Self> {
                (kind == TrieKind::$kind).then_some(Self { store })
            }
        }

        impl<Store: AsRef<[u8]> + ?Sized> $name<Store> {
            /// Returns the value of a key.
            ///
            /// ```
            #[doc = concat!("use zerotrie::", stringify!($name), ";")]
            ///
            #[doc = concat!("let trie = ", stringify!($name), "::try_from_iter([(\"in\", 1), (\"into\", 2)])?;")]
            /// assert_eq!(trie.get("into"), Some(2));
            /// assert_eq!(trie.get(b"int"), None);
            /// # Ok::<(), zerotrie::ZeroTrieBuildError>(())
            /// ```
            #[inline]
            pub fn get<K: AsRef<[u8]>>(&self, key: K) -> Option<usize> {
                zerotrie_core::get::<$kind>(self.store.as_ref(), key.as_ref())
            }

            /// Returns whether the trie has no bytes, and so no pairs.
            ///
            /// ```
            #[doc = concat!("use zerotrie::", stringify!($name), ";")]
            ///
            #[doc = concat!("assert!(", stringify!($name), "::<&[u8]>::default().is_empty());")]
            /// ```
            #[inline]
            pub fn is_empty(&self) -> bool {
                self.store.as_ref().is_empty()
            }

            /// Returns the number of bytes. [`count`](Self::count) is that of the pairs.
            ///
            /// ```
            #[doc = concat!("use zerotrie::", stringify!($name), ";")]
            ///
            #[doc = concat!("assert_eq!(", stringify!($name), "::from_bytes(b\"abc\\x80def\\x81\").byte_len(), 8);")]
            /// ```
            #[inline]
            pub fn byte_len(&self) -> usize {
                self.store.as_ref().len()
            }

            /// Returns the bytes.
            ///
            /// ```
            #[doc = concat!("use zerotrie::", stringify!($name), ";")]
            ///
            #[doc = concat!("let trie = ", stringify!($name), "::try_from_iter([(\"abc\", 5)])?;")]
            /// assert_eq!(trie.as_bytes(), b"abc\x85");
            /// # Ok::<(), zerotrie::ZeroTrieBuildError>(())
            /// ```
            #[inline]
            pub fn as_bytes(&self) -> &[u8] {
                self.store.as_ref()
            }

            /// Returns the kind of the type.
            ///
            /// ```
            #[doc = concat!("use zerotrie::{TrieKind, ", stringify!($name), "};")]
            ///
            #[doc = concat!("assert_eq!(", stringify!($name), "::from_store([]).kind(), TrieKind::", stringify!($kind), ");")]
            /// ```
            #[inline]
            pub fn kind(&self) -> TrieKind {
                TrieKind::$kind
            }

            /// Returns the same trie over a slice of bytes.
            ///
            /// ```
            #[doc = concat!("use zerotrie::", stringify!($name), ";")]
            ///
            #[doc = concat!("let trie = ", stringify!($name), "::try_from_iter([(\"abc\", 5)])?;")]
            #[doc = concat!("let borrowed: &", stringify!($name), "<[u8]> = trie.as_borrowed();")]
            /// assert_eq!(borrowed.get("abc"), Some(5));
            /// # Ok::<(), zerotrie::ZeroTrieBuildError>(())
            /// ```
            #[inline]
            pub fn as_borrowed(&self) -> &$name<[u8]> {
                $name::from_bytes(self.store.as_ref())
            }

            /// Returns the same trie over a borrowed slice of bytes.
            ///
            /// ```
            #[doc = concat!("use zerotrie::", stringify!($name), ";")]
            ///
            #[doc = concat!("let trie = ", stringify!($name), "::try_from_iter([(\"abc\", 5)])?;")]
            #[doc = concat!("let borrowed: ", stringify!($name), "<&[u8]> = trie.as_borrowed_slice();")]
            /// assert_eq!(borrowed.get("abc"), Some(5));
            /// # Ok::<(), zerotrie::ZeroTrieBuildError>(())
            /// ```
            #[inline]
            pub fn as_borrowed_slice(&self) -> $name<&[u8]> {
                $name::from_store(self.store.as_ref())
            }

            /// Returns the same trie over a copy of its bytes.
            ///
            /// ```
            #[doc = concat!("use zerotrie::", stringify!($name), ";")]
            ///
            #[doc = concat!("let owned: ", stringify!($name), "<Vec<u8>> = ", stringify!($name), "::from_bytes(b\"abc\\x85\").to_owned();")]
            /// assert_eq!(owned.get("abc"), Some(5));
            /// ```
            #[inline]
            pub fn to_owned(&self) -> $name<Vec<u8>> {
                $name::from_store(self.store.as_ref().to_vec())
            }

            /// Lists the pairs in the order of the bytes.
            ///
            /// ```
            #[doc = concat!("use zerotrie::", stringify!($name), ";")]
            ///
            #[doc = concat!("let trie = ", stringify!($name), "::from_bytes(b\"abc\\x80def\\x81\");")]
            /// let mut pairs = trie.iter();
            /// assert_eq!(pairs.next(), Some(("abc".into(), 0)));
            /// assert_eq!(pairs.next(), Some(("abcdef".into(), 1)));
            /// assert_eq!(pairs.next(), None);
            /// ```
            #[inline]
            pub fn iter(&self) -> $iter<'_> {
                $($wrapped)*(self.stream())
            }

            /// Lists the pairs whose keys begin with a prefix.
            ///
            /// ```
            #[doc = concat!("use zerotrie::", stringify!($name), ";")]
            ///
            #[doc = concat!("let trie = ", stringify!($name), "::try_from_iter([(\"in\", 1), (\"into\", 2)])?;")]
            /// let mut pairs = trie.iter_prefix("int");
            /// assert_eq!(pairs.next(), Some(("into".into(), 2)));
            /// assert_eq!(pairs.next(), None);
            /// # Ok::<(), zerotrie::ZeroTrieBuildError>(())
            /// ```
            pub fn iter_prefix<K: AsRef<[u8]>>(&self, prefix: K) -> $iter<'_> {
                $($wrapped)*(self.stream_prefix(prefix))
            }

            /// Lists the keys in the order of the bytes.
            ///
            /// ```
            #[doc = concat!("use zerotrie::", stringify!($name), ";")]
            ///
            #[doc = concat!("let trie = ", stringify!($name), "::try_from_iter([(\"in\", 1), (\"into\", 2)])?;")]
            /// assert_eq!(trie.keys().last(), Some("into".into()));
            /// # Ok::<(), zerotrie::ZeroTrieBuildError>(())
            /// ```
            pub fn keys(&self) -> $keys<'_> {
                $keys(self.stream())
            }

            /// Returns the pairs in a `BTreeMap`.
            ///
            /// ```
            #[doc = concat!("use zerotrie::", stringify!($name), ";")]
            ///
            #[doc = concat!("let trie = ", stringify!($name), "::try_from_iter([(\"in\", 1), (\"into\", 2)])?;")]
            #[doc = concat!("let again = ", stringify!($name), "::try_from_iter(trie.to_btreemap())?;")]
            /// assert_eq!(trie, again);
            /// # Ok::<(), zerotrie::ZeroTrieBuildError>(())
            /// ```
            pub fn to_btreemap(&self) -> BTreeMap<$key, usize> {
                self.iter().collect()
            }
        }

        impl $name<[u8]> {
            /// Makes a trie of bytes, which are not validated.
            ///
            /// ```
            #[doc = concat!("use zerotrie::", stringify!($name), ";")]
            ///
            #[doc = concat!("let trie: &", stringify!($name), "<[u8]> = ", stringify!($name), "::from_bytes(b\"abc\\x85\");")]
            /// assert_eq!(trie.get("abc"), Some(5));
            /// ```
            ///
            /// On malformed bytes each call returns, and its result is unspecified.
            #[allow(unsafe_code)]
            #[inline]
            pub fn from_bytes(trie: &[u8]) -> &Self {
                // SAFETY: the type is transparent over its store.
                unsafe { &*(trie as *const [u8] as *const Self) }
            }

            /// Makes a trie of bytes, which are validated: each is read once.
            ///
            /// ```
            #[doc = concat!("use zerotrie::", stringify!($name), ";")]
            ///
            #[doc = concat!("assert!(", stringify!($name), "::try_from_bytes(b\"abc\\x85\").is_ok());")]
            #[doc = concat!("assert!(", stringify!($name), "::try_from_bytes(b\"abc\").is_err());")]
            /// ```
            pub fn try_from_bytes(trie: &[u8]) -> Result<&Self, NotWellFormed> {
                let trie = Self::from_bytes(trie);
                if trie.is_well_formed() { Ok(trie) } else { Err(NotWellFormed) }
            }
        }

        impl $name<Vec<u8>> {
            /// Returns how many bytes the trie of some pairs has, whose keys ascend by their bytes.
            ///
            /// ```
            #[doc = concat!("use zerotrie::", stringify!($name), ";")]
            ///
            #[doc = concat!("assert_eq!(", stringify!($name), "::encoded_len(&[(\"abc\", 5)])?, 4);")]
            /// # Ok::<(), zerotrie::ZeroTrieBuildError>(())
            /// ```
            pub fn encoded_len<K: AsRef<[u8]>>(pairs: &[(K, usize)]) -> Result<usize, ZeroTrieBuildError> {
                len_ascending::<$kind, K, Global>(Global, ascending(pairs)?)
            }

            /// Returns which keys show why a build of pairs returns an error, if keys do. The keys of
            /// [`try_from_sorted_slice`](Self::try_from_sorted_slice) are to ascend.
            ///
            /// ```
            #[doc = concat!("use zerotrie::", stringify!($name), ";")]
            ///
            #[doc = concat!("let why = ", stringify!($name), "::why_slice_refused(&[(\"in\", 1), (\"in\", 2)]);")]
            /// assert_eq!(why.map(|why| (why.first, why.second)), Some((0, 1)));
            /// ```
            pub fn why_slice_refused<K: AsRef<[u8]>>(pairs: &[(K, usize)]) -> Option<Refusal> {
                why_slice_refused::<$kind, K>(pairs)
            }

            /// Returns the same of a build of pairs in any order, as
            /// [`try_from_iter`](Self::try_from_iter) takes them.
            ///
            /// ```
            #[doc = concat!("use zerotrie::", stringify!($name), ";")]
            ///
            #[doc = concat!("let why = ", stringify!($name), "::why_iter_refused(&[(\"to\", 1), (\"in\", 2), (\"to\", 3)]);")]
            /// assert_eq!(why.map(|why| (why.first, why.second)), Some((0, 2)));
            /// ```
            pub fn why_iter_refused<K: AsRef<[u8]>>(pairs: &[(K, usize)]) -> Option<Refusal> {
                allocated(why_iter_refused::<$kind, K>(Global, pairs))
            }

            fn of_sorted<K: AsRef<[u8]>>(pairs: &[(K, usize)]) -> Result<Self, ZeroTrieBuildError> {
                let bytes: VecDeque<u8> = build_ascending::<$kind, K, _, Global>(Global, Global, ascending(pairs)?)?;
                Ok(Self::from_store(bytes.into_vec().into_inner()))
            }

            pub(crate) fn of_pairs(pairs: &[(&[u8], usize)]) -> Result<Self, ZeroTrieBuildError> {
                let bytes = zerotrie_any::bytes_from_unsorted_slice::<$kind>(Global, pairs)?;
                Ok(Self::from_store(bytes.into_inner()))
            }
        }

        impl<'a, K: Borrow<[u8]>> TryFrom<&'a BTreeMap<K, usize>> for $name<Vec<u8>> {
            type Error = ZeroTrieBuildError;

            fn try_from(map: &'a BTreeMap<K, usize>) -> Result<Self, ZeroTrieBuildError> {
                Self::of_pairs(&map.iter().map(|(key, value)| (key.borrow(), *value)).collect::<Vec<_>>())
            }
        }

        impl<Store: AsRef<[u8]> + ?Sized> From<&$name<Store>> for BTreeMap<$key, usize> {
            fn from(trie: &$name<Store>) -> Self {
                trie.to_btreemap()
            }
        }

        /// Lists the pairs, as `iter` does.
        impl<'a, Store: AsRef<[u8]> + ?Sized> IntoIterator for &'a $name<Store> {
            type Item = <$iter<'a> as Iterator>::Item;
            type IntoIter = $iter<'a>;

            fn into_iter(self) -> $iter<'a> {
                self.iter()
            }
        }

        impl<Store: AsRef<[u8]> + ?Sized> AsRef<$name<[u8]>> for $name<Store> {
            fn as_ref(&self) -> &$name<[u8]> {
                self.as_borrowed()
            }
        }

        impl Borrow<$name<[u8]>> for $name<&[u8]> {
            fn borrow(&self) -> &$name<[u8]> {
                self.as_borrowed()
            }
        }

        impl Borrow<$name<[u8]>> for $name<Box<[u8]>> {
            fn borrow(&self) -> &$name<[u8]> {
                self.as_borrowed()
            }
        }

        impl Borrow<$name<[u8]>> for $name<Vec<u8>> {
            fn borrow(&self) -> &$name<[u8]> {
                self.as_borrowed()
            }
        }

        /// So that a `Cow` of a trie can be had.
        impl ToOwned for $name<[u8]> {
            type Owned = $name<Box<[u8]>>;

            fn to_owned(&self) -> Self::Owned {
                $name::from_store(Box::from(&self.store))
            }
        }

        calls!($name, ?Sized);
    };
}

kind!(ZeroTrieSimpleAscii, Simple, String, ZeroTrieStringIterator(ZeroTrieStringIterator), ZeroTrieStringKeys);
kind!(ZeroAsciiIgnoreCaseTrie, Ignore, String, ZeroTrieStringIterator(ZeroTrieStringIterator), ZeroTrieStringKeys);
kind!(ZeroTriePerfectHash, Hash, Vec<u8>, ZeroTrieIterator(), ZeroTrieKeys);
kind!(ZeroTrieExtendedCapacity, Ext, Vec<u8>, ZeroTrieIterator(), ZeroTrieKeys);

/// Lets a `ZeroTrie` be of a kind.
macro_rules! into_zerotrie {
    ($name:ident, $flavor:ident) => {
        impl<Store> $name<Store> {
            /// Makes a [`ZeroTrie`] of this trie.
            ///
            /// ```
            #[doc = concat!("use zerotrie::", stringify!($name), ";")]
            ///
            #[doc = concat!("let trie = ", stringify!($name), "::try_from_iter([(\"in\", 1)])?.into_zerotrie();")]
            /// assert_eq!(trie.get("in"), Some(1));
            /// # Ok::<(), zerotrie::ZeroTrieBuildError>(())
            /// ```
            #[inline]
            pub const fn into_zerotrie(self) -> ZeroTrie<Store> {
                ZeroTrie(any::Flavor::$flavor(self))
            }
        }
    };
}

into_zerotrie!(ZeroTrieSimpleAscii, SimpleAscii);
into_zerotrie!(ZeroTriePerfectHash, PerfectHash);
into_zerotrie!(ZeroTrieExtendedCapacity, ExtendedCapacity);
