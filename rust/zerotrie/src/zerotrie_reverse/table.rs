// Made from crates/zerotrie_reverse/src/table.rt by rust/make: edit that.
//! The table of places that reverse look-ups use.

use crate::rstd::prelude::*;
use crate::zerotrie_reverse::descent::read_key_at;
use crate::zerotrie_reverse::places::{first_place_of, sorted_places};
use crate::rstd::alloc::{AllocError, Global};
use crate::zerotrie_core::{ZeroTrieBuilderOptions, ZeroTrieWithOptions, by_kind, first_key_of};

/// A table over the bytes of a trie of any kind that finds the first key that has a value.
///
/// ```
/// # use zerotrie::{rstd::examples::*, zerotrie_reverse::*, zerotrie_base::*, zerotrie_core::*};
/// let bytes = b"ad\x90\x06ef\x90\x11";        // the keys "ad" with value 22 and "adef" with 33
/// let table = KeysByValue::new::<Simple>(Global, bytes)?;
/// let key = table.first_key_of(Global, 33)?.ok_or("no key")?;
/// assert_eq!(key.as_slice(), b"adef".as_slice());
/// assert!(table.first_key_of(Global, 34)?.is_none());
/// # Ok::<(), Fail>(())
/// ```
///
/// It borrows the bytes, and has four bytes for each pair: where its value is, in the order of the
/// values. A look-up is a binary search among the values, and a descent from the root to the place
/// found.
///
/// Building it lists all pairs, descends to the place of each, and sorts the places. A place is taken
/// only if the descent reads that pair. If it reads another one, as it may on malformed bytes, or if
/// there are 4 GiB or more, the table has no places, and a look-up reads the pairs one after another.
/// That no other trie has such a table is tested, and not proved. `len` shows it.
#[derive(Debug)]
pub struct KeysByValue<'a> {
    options: ZeroTrieBuilderOptions,
    bytes: &'a [u8],
    places: Option<Vec<u32>>,
}

/// Returns the key of the trie whose value is at this place.
#[inline]
fn key_at<K: ZeroTrieWithOptions>(
    alloc: Global,
    bytes: &[u8],
    place: usize,
) -> Result<Vec<u8>, AllocError> {
    let mut key = Vec::new(alloc);
    read_key_at::<K, Global>(bytes, place, &mut key)?;
    Ok(key)
}

/// Returns the first key that has a value, by a scan of the pairs.
#[inline]
fn scanned<K: ZeroTrieWithOptions>(
    alloc: Global,
    bytes: &[u8],
    value: usize,
) -> Result<Option<Vec<u8>>, AllocError> {
    match first_key_of::<K>(alloc, bytes, value) {
        Ok(key) => Ok(key),
        Err(_) => Err(AllocError),
    }
}

/// Like `key_at`, by the options of the kind.
#[inline]
fn key_with(
    options: ZeroTrieBuilderOptions,
    alloc: Global,
    bytes: &[u8],
    place: usize,
) -> Result<Vec<u8>, AllocError> {
    by_kind!(options.kind(), key_at::<_>(alloc, bytes, place))
}

/// Like `scanned`, by the options of the kind.
#[inline]
fn scanned_with(
    options: ZeroTrieBuilderOptions,
    alloc: Global,
    bytes: &[u8],
    value: usize,
) -> Result<Option<Vec<u8>>, AllocError> {
    by_kind!(options.kind(), scanned::<_>(alloc, bytes, value))
}

/// Returns the first key that has a value, by the places of a table.
#[inline]
fn found(
    options: ZeroTrieBuilderOptions,
    alloc: Global,
    bytes: &[u8],
    places: &[u32],
    value: usize,
) -> Result<Option<Vec<u8>>, AllocError> {
    match first_place_of(bytes, places, value) {
        None => Ok(None),
        Some(place) => {
            let key = key_with(options, alloc, bytes, place as usize)?;
            Ok(Some(key))
        }
    }
}

/// Returns the first key that has a value, by the places of a table that was kept apart from it.
///
/// ```
/// # use zerotrie::{rstd::examples::*, zerotrie_reverse::*, zerotrie_base::*, zerotrie_core::*};
/// // the keys "a", "b" and "c" with values 5, 6 and 5
/// let bytes = b"\xC3abc\x01\x02\x85\x86\x85";
/// let table = KeysByValue::new::<Simple>(Global, bytes)?;
/// let places = table.places().ok_or("no places")?;
/// let key = first_key_by_places::<Simple>(Global, bytes, places, 6)?.ok_or("no key")?;
/// assert_eq!(key.as_slice(), b"b".as_slice());
/// # Ok::<(), Fail>(())
/// ```
///
/// Places that are no table of these bytes do no harm, but the result is unspecified. The only error
/// is a failed allocation.
#[inline]
pub fn first_key_by_places<K: ZeroTrieWithOptions>(
    alloc: Global,
    bytes: &[u8],
    places: &[u32],
    value: usize,
) -> Result<Option<Vec<u8>>, AllocError> {
    found(
        ZeroTrieBuilderOptions::of::<K>(),
        alloc,
        bytes,
        places,
        value,
    )
}

impl<'a> KeysByValue<'a> {
    /// Builds the table of a trie.
    ///
    /// It has a place for each pair, or none at all. The only error is a failed allocation.
    #[inline]
    pub fn new<K: ZeroTrieWithOptions>(alloc: Global, bytes: &'a [u8]) -> Result<Self, AllocError> {
        let places = sorted_places::<K>(alloc, bytes)?;
        Ok(KeysByValue {
            options: ZeroTrieBuilderOptions::of::<K>(),
            bytes,
            places,
        })
    }

    /// Returns the first key, in the order of the trie's `stream`, that has this value, or `None` if
    /// no key has it.
    ///
    /// ```
    /// # use zerotrie::{rstd::examples::*, zerotrie_reverse::*, zerotrie_base::*, zerotrie_core::*};
    /// // the keys "a", "b" and "c" with values 5, 6 and 5
    /// let bytes = b"\xC3abc\x01\x02\x85\x86\x85";
    /// let table = KeysByValue::new::<Simple>(Global, bytes)?;
    /// let key = table.first_key_of(Global, 5)?.ok_or("no key")?;
    /// assert_eq!(key.as_slice(), b"a".as_slice());
    /// # Ok::<(), Fail>(())
    /// ```
    ///
    /// On malformed bytes the result is unspecified. The only error is a failed allocation.
    #[inline]
    pub fn first_key_of(&self, alloc: Global, value: usize) -> Result<Option<Vec<u8>>, AllocError> {
        match &self.places {
            None => scanned_with(self.options, alloc, self.bytes, value),
            Some(places) => found(self.options, alloc, self.bytes, places.as_slice(), value),
        }
    }

    /// Returns the bytes of the trie.
    #[inline]
    pub fn bytes(&self) -> &'a [u8] {
        self.bytes
    }

    /// Returns the places, in the order of their values, by which `first_key_by_places` finds keys.
    /// Returns `None` if look-ups read the pairs.
    #[inline]
    pub fn places(&self) -> Option<&[u32]> {
        match &self.places {
            Some(places) => Some(places.as_slice()),
            None => None,
        }
    }

    /// Returns how many places the table has, of four bytes each: the number of pairs, or 0 if
    /// look-ups read the pairs.
    ///
    /// ```
    /// # use zerotrie::{rstd::examples::*, zerotrie_reverse::*, zerotrie_base::*, zerotrie_core::*};
    /// let table = KeysByValue::new::<Simple>(Global, b"ad\x90\x06ef\x90\x11")?;
    /// assert_eq!(table.len(), 2);
    /// # Ok::<(), Fail>(())
    /// ```
    #[inline]
    pub fn len(&self) -> usize {
        match &self.places {
            Some(places) => places.len(),
            None => 0,
        }
    }
}
