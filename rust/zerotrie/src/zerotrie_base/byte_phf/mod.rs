// Made from crates/zerotrie_base/src/byte_phf/mod.rt by rust/make: edit that.
//! Perfect hashes of bytes.
//!
//! A table of n keys is a byte `p`, then n bytes `q`, then the n keys, each at its place. To find a
//! byte, [`f1`] computes its bucket from `p`, [`f2`] computes its place from the bucket's `q`, and
//! the key at that place is compared.

use crate::rstd::prelude::*;

mod builder;
mod cached_owned;
mod groups;
mod remainders;

use crate::zerotrie_base::error::ZeroTrieBuildError;
use crate::zerotrie_base::store::TrieStore;
use builder::{find, placed_keys};
pub use cached_owned::PerfectByteHashMapCacheOwned;
use remainders::remainder;
use crate::rstd::alloc::{Allocator, Global};

/// The greatest `q` for which [`f2`] turns nothing.
const Q_FAST_MAX: u8 = 95;

/// Returns the bucket of the byte among `n`, by the parameter `p`.
///
/// ```
/// # use zerotrie::{rstd::examples::*, zerotrie_base::*};
/// assert_eq!(f1(10, 0, 10), 0);
/// assert_eq!(f1(10, 1, 10), 4);
/// # Ok::<(), Fail>(())
/// ```
///
/// If `p` is 0, the bucket is the remainder of the byte by `n`. Otherwise it is that of the
/// exclusive or of the byte, `p`, and the byte shifted right by `p` modulo 8. An `n` of 0 means
/// 256: every byte is its own bucket.
pub fn f1(byte: u8, p: u8, n: u8) -> u8 {
    if n == 0 {
        byte
    } else {
        remainder(mixed(byte, p), n)
    }
}

/// Returns the number whose remainder by `n` is the bucket of the byte.
#[inline]
fn mixed(byte: u8, p: u8) -> u8 {
    if p == 0 {
        byte
    } else {
        byte ^ p ^ (byte >> (p % 8))
    }
}

/// Returns the place of the byte among `n`, by the parameter `q` of its bucket.
///
/// ```
/// # use zerotrie::{rstd::examples::*, zerotrie_base::*};
/// assert_eq!(f2(2, 0, 10), 2);
/// assert_eq!(f2(2, 1, 10), 3);
/// # Ok::<(), Fail>(())
/// ```
///
/// The place is the remainder by `n` of the exclusive or of the byte and `q`. If `q` is above 95,
/// that number is first turned `q - 95` times: a turn is its exclusive or with itself shifted left
/// by one and right by one, in eight bits. An `n` of 0 means 256: every byte is its own place.
pub fn f2(byte: u8, q: u8, n: u8) -> u8 {
    if n == 0 {
        byte
    } else {
        remainder(turned(byte, q), n)
    }
}

/// Returns the number whose remainder by `n` is the place of the byte.
#[inline]
fn turned(byte: u8, q: u8) -> u8 {
    let mut turned = byte ^ q;
    for _turn in Q_FAST_MAX..q {
        turned = turned ^ (turned << 1) ^ (turned >> 1);
    }
    turned
}

/// Returns whether no byte occurs twice.
///
/// ```
/// # use zerotrie::{rstd::examples::*, zerotrie_base::*};
/// assert!(are_distinct(b"aceg"));
/// assert!(!are_distinct(b"abca"));
/// # Ok::<(), Fail>(())
/// ```
///
/// Does not allocate. Returns `true` if there are no bytes.
pub fn are_distinct(keys: &[u8]) -> bool {
    let mut seen = [false; 256];
    for key in keys {
        if seen[*key as usize] {
            return false;
        }
        seen[*key as usize] = true;
    }
    true
}

/// Returns the place of the key, by the bytes of a table.
fn number_of(bytes: &[u8], key: u8) -> Option<usize> {
    let (p, rest) = bytes.split_first()?;
    let count = rest.len() / 2;
    if count == 0 {
        return None;
    }
    let n = (count % 256) as u8;
    let (qs, keys) = rest.split_at(count);
    let q = qs[f1(key, *p, n) as usize];
    let place = f2(key, q, n) as usize;
    if keys[place] == key {
        Some(place)
    } else {
        None
    }
}

/// Builds the bytes of a perfect table of the keys, in memory of any allocator.
fn table_of<A: Allocator + Copy>(alloc: A, keys: &[u8]) -> Result<Vec<u8, A>, ZeroTrieBuildError> {
    let parameters = find(alloc, keys)?;
    let placed = placed_keys(alloc, keys, &parameters)?;
    let mut table = Vec::with_capacity(alloc, 1 + 2 * keys.len())?;
    table.push(parameters.p)?;
    table.extend_from_slice(parameters.qs.as_slice())?;
    table.extend_from_slice(placed.as_slice())?;
    Ok(table)
}

/// A map from bytes to their places, over the bytes of any store.
///
/// ```
/// # use zerotrie::{rstd::examples::*, zerotrie_base::*};
/// assert!(are_distinct(b"aceg"));
/// let table = PerfectByteHashMap::try_new(Global, b"aceg")?;
/// assert_eq!(table.as_bytes(), b"\x01\x00\x00\x01\x01eacg".as_slice());
/// assert_eq!(table.get(b'c'), Some(2));
/// assert_eq!(table.get(b'd'), None);
/// # Ok::<(), Fail>(())
/// ```
///
/// A table of n keys has `1 + 2 * n` bytes: `p`, a `q` for each bucket, and the keys. It is perfect
/// if each key is at its own place. Each call also returns on bytes that are not a perfect table.
#[derive(Debug)]
pub struct PerfectByteHashMap<S> {
    /// The bytes of the table.
    pub store: S,
}

impl PerfectByteHashMap<Vec<u8>> {
    /// Builds a perfect table of the keys, in an order of its own.
    ///
    /// The keys must be distinct, which [`are_distinct`] tests; so there are at most 256. The
    /// search tries `p` from 0 to 95 and each bucket's `q` from 0 to 95, then again with each `q`
    /// to 127. If there are no keys or 256, or the remainders of the keys by their number are
    /// distinct, every parameter is 0.
    ///
    /// # Errors
    ///
    /// - `CouldNotSolvePerfectHash`: there are 1 to 255 keys, and for no `p` can the buckets, the
    ///   largest first, each be given the least `q` by which the places of its keys are distinct
    ///   and free.
    /// - `OutOfMemory`: an allocation failed.
    pub fn try_new(
        alloc: Global,
        keys: &[u8],
    ) -> Result<PerfectByteHashMap<Vec<u8>>, ZeroTrieBuildError> {
        let store = table_of(alloc, keys)?;
        Ok(PerfectByteHashMap { store })
    }
}

impl<S> PerfectByteHashMap<S> {
    /// Returns the table in a store, whose bytes are not validated.
    pub fn from_store(store: S) -> Self {
        PerfectByteHashMap { store }
    }
}

impl<'a> PerfectByteHashMap<&'a [u8]> {
    /// Returns the table in these bytes, which are not validated.
    pub fn from_bytes(bytes: &'a [u8]) -> Self {
        PerfectByteHashMap { store: bytes }
    }
}

impl<S: TrieStore> PerfectByteHashMap<S> {
    /// Returns the place of the key, or `None` if the table does not have it.
    ///
    /// On a perfect table, key number i is at place i. On any bytes, let n be half the number of
    /// bytes after the first one, rounded down. The first n of these give a place, which is
    /// returned if the byte n further on is the key.
    pub fn get(&self, key: u8) -> Option<usize> {
        number_of(self.store.bytes(), key)
    }

    /// Returns the number of keys: half the number of bytes, rounded down.
    pub fn num_items(&self) -> usize {
        self.store.bytes().len() / 2
    }

    /// Returns the keys in the order of their places: the bytes after the first `1 + num_items`, or
    /// none if there are fewer.
    pub fn keys(&self) -> &[u8] {
        let bytes = self.store.bytes();
        bytes.get(1 + bytes.len() / 2..).unwrap_or(&[])
    }

    /// Returns the bytes of the table, which [`Self::from_store`] and [`Self::from_bytes`] take.
    pub fn as_bytes(&self) -> &[u8] {
        S::bytes(&self.store)
    }

    /// Returns the same table over borrowed bytes. Does not allocate.
    pub fn as_borrowed(&self) -> PerfectByteHashMap<&[u8]> {
        PerfectByteHashMap {
            store: self.store.bytes(),
        }
    }
}

impl<S: Copy> Clone for PerfectByteHashMap<S> {
    fn clone(&self) -> Self {
        *self
    }
}

impl<S: Copy> Copy for PerfectByteHashMap<S> {}

impl<S: TrieStore> PartialEq for PerfectByteHashMap<S> {
    fn eq(&self, other: &Self) -> bool {
        self.store.bytes() == other.store.bytes()
    }
}

impl<S: TrieStore> Eq for PerfectByteHashMap<S> {}
