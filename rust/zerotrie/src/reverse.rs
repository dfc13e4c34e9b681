//! Keys by their values.

use crate::Trie;
use crate::by_kind;
use crate::listing::allocated;
use crate::rstd;
use crate::rstd::alloc::{AllocError, Global};
use crate::zerotrie_core::{TrieKind, ZeroTrieWithOptions};
use crate::zerotrie_reverse;
use alloc::vec::Vec;

/// A table that finds the first key of a value, by four bytes for each pair.
///
/// ```
/// use zerotrie::ZeroTrie;
///
/// let trie = ZeroTrie::try_from_iter([("abc", 11), ("xyz", 22)])?;
/// let table = trie.keys_by_value();
/// assert_eq!(table.first_key_of(22), Some(b"xyz".to_vec()));
/// assert_eq!(table.first_key_of(33), None);
/// # Ok::<(), zerotrie::ZeroTrieBuildError>(())
/// ```
#[derive(Debug)]
pub struct KeysByValue<'a>(zerotrie_reverse::KeysByValue<'a>);

fn table<K: ZeroTrieWithOptions>(bytes: &[u8]) -> Result<zerotrie_reverse::KeysByValue<'_>, AllocError> {
    zerotrie_reverse::KeysByValue::new::<K>(Global, bytes)
}

impl<'a> KeysByValue<'a> {
    #[inline]
    pub(crate) fn of(kind: TrieKind, bytes: &'a [u8]) -> Self {
        KeysByValue(allocated(by_kind!(kind, table::<_>(bytes))))
    }

    /// Returns the first key, in the order of the trie's bytes, that has a value.
    ///
    /// ```
    /// use zerotrie::ZeroTrieSimpleAscii;
    ///
    /// let trie = ZeroTrieSimpleAscii::try_from_iter([("a", 5), ("b", 6), ("c", 5)])?;
    /// assert_eq!(trie.keys_by_value().first_key_of(5), Some(b"a".to_vec()));
    /// # Ok::<(), zerotrie::ZeroTrieBuildError>(())
    /// ```
    #[inline]
    pub fn first_key_of(&self, value: usize) -> Option<Vec<u8>> {
        allocated(self.0.first_key_of(Global, value)).map(|key| key.into_inner())
    }

    /// Returns how many places the table has: the number of pairs, or 0 if a look-up reads the pairs
    /// one after another, as in 4 GiB or more.
    ///
    /// ```
    /// use zerotrie::ZeroTrieSimpleAscii;
    ///
    /// let trie = ZeroTrieSimpleAscii::try_from_iter([("a", 5), ("b", 6)])?;
    /// assert_eq!(trie.keys_by_value().len(), 2);
    /// # Ok::<(), zerotrie::ZeroTrieBuildError>(())
    /// ```
    #[allow(clippy::len_without_is_empty)]
    #[inline]
    pub fn len(&self) -> usize {
        self.0.len()
    }

    /// Returns the places, in the order of their values, by which `first_key_by_places` finds keys, or
    /// `None` if a look-up reads the pairs.
    #[inline]
    pub fn places(&self) -> Option<&[u32]> {
        self.0.places()
    }
}

fn first_key<K: ZeroTrieWithOptions>(
    bytes: &[u8],
    places: &[u32],
    value: usize,
) -> Result<Option<rstd::vec::Vec<u8>>, AllocError> {
    zerotrie_reverse::first_key_by_places::<K>(Global, bytes, places, value)
}

/// Returns the first key that has a value, by places that were kept apart from the table.
///
/// ```
/// use zerotrie::{ZeroTrieSimpleAscii, first_key_by_places};
///
/// let trie = ZeroTrieSimpleAscii::try_from_iter([("a", 5), ("b", 6), ("c", 5)])?;
/// let places = trie.keys_by_value().places().unwrap().to_vec();
/// assert_eq!(first_key_by_places(&trie, &places, 5), Some(b"a".to_vec()));
/// # Ok::<(), zerotrie::ZeroTrieBuildError>(())
/// ```
///
/// Places of another trie do no harm, but the result is unspecified.
pub fn first_key_by_places<T: Trie + ?Sized>(trie: &T, places: &[u32], value: usize) -> Option<Vec<u8>> {
    let key = by_kind!(trie.kind(), first_key::<_>(trie.as_bytes(), places, value));
    allocated(key).map(|key| key.into_inner())
}
