// Made from crates/zerotrie_base/src/store.rt by rust/make: edit that.
//! Stores of bytes, and keys.

use crate::rstd::prelude::*;
use crate::rstd::borrow::CowSlice;
use crate::rstd::boxed::BoxedSlice;

/// A container of bytes, for example of a trie or a table.
///
/// ```
/// # use zerotrie::{rstd::examples::*, zerotrie_base::*};
/// let store = [0x61, 0x81];
/// assert_eq!(store.bytes().len(), 2);
/// # Ok::<(), Fail>(())
/// ```
///
/// `bytes` returns the same bytes at each call. Slices, vectors, boxed slices, `CowSlice` and
/// arrays are stores.
pub trait TrieStore {
    /// Returns the bytes of the store. Does not allocate or copy.
    fn bytes(&self) -> &[u8];
}

impl TrieStore for &[u8] {
    fn bytes(&self) -> &[u8] {
        *self
    }
}

impl TrieStore for Vec<u8> {
    fn bytes(&self) -> &[u8] {
        self.as_slice()
    }
}

impl TrieStore for BoxedSlice<u8> {
    fn bytes(&self) -> &[u8] {
        self.as_slice()
    }
}

impl<'a> TrieStore for CowSlice<'a, u8> {
    fn bytes(&self) -> &[u8] {
        self.as_slice()
    }
}

impl<const N: usize> TrieStore for [u8; N] {
    fn bytes(&self) -> &[u8] {
        self.as_slice()
    }
}

/// A store that another store converts into, with the same bytes.
///
/// ```
/// # use zerotrie::{rstd::examples::*, zerotrie_base::*};
/// let store: CowSlice<u8> = ConvertStore::convert(Vec::from_slice(Global, b"a\x81")?);
/// assert_eq!(store.bytes(), b"a\x81".as_slice());
/// # Ok::<(), Fail>(())
/// ```
///
/// Each store converts into itself, and a vector or a borrowed slice into a `CowSlice`.
pub trait ConvertStore<S: TrieStore>: TrieStore {
    /// Returns a store with the bytes of `store`. Does not allocate.
    fn convert(store: S) -> Self;
}

impl<'a> ConvertStore<&'a [u8]> for &'a [u8] {
    fn convert(store: &'a [u8]) -> &'a [u8] {
        store
    }
}

impl ConvertStore<Vec<u8>> for Vec<u8> {
    fn convert(store: Vec<u8>) -> Vec<u8> {
        store
    }
}

impl ConvertStore<BoxedSlice<u8>> for BoxedSlice<u8> {
    fn convert(store: BoxedSlice<u8>) -> BoxedSlice<u8> {
        store
    }
}

impl<'a> ConvertStore<CowSlice<'a, u8>> for CowSlice<'a, u8> {
    fn convert(store: CowSlice<'a, u8>) -> CowSlice<'a, u8> {
        store
    }
}

impl<const N: usize> ConvertStore<[u8; N]> for [u8; N] {
    fn convert(store: [u8; N]) -> [u8; N] {
        store
    }
}

impl<'a> ConvertStore<Vec<u8>> for CowSlice<'a, u8> {
    fn convert(store: Vec<u8>) -> CowSlice<'a, u8> {
        CowSlice::Owned(store)
    }
}

impl<'a> ConvertStore<&'a [u8]> for CowSlice<'a, u8> {
    fn convert(store: &'a [u8]) -> CowSlice<'a, u8> {
        CowSlice::Borrowed(store)
    }
}

/// A key: a string or bytes, borrowed or owned.
///
/// ```
/// # use zerotrie::{rstd::examples::*, zerotrie_base::*};
/// assert_eq!("ad".key_bytes(), b"ad".as_slice());
/// assert_eq!(b"ad".key_bytes(), b"ad".as_slice());
/// # Ok::<(), Fail>(())
/// ```
///
/// `key_bytes` returns the same bytes at each call.
pub trait TrieKey {
    /// Returns the bytes of the key. Does not allocate or copy.
    fn key_bytes(&self) -> &[u8];
}

impl<K: AsRef<[u8]>> TrieKey for K {
    fn key_bytes(&self) -> &[u8] {
        self.as_ref()
    }
}
