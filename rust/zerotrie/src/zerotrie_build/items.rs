// Made from crates/zerotrie_build/src/items.rt by rust/make: edit that.
//! Items that are asked for by number, however they are kept.

use crate::rstd::prelude::*;
use crate::zerotrie_build::order::{are_keys, is_ordered};
use crate::rstd::alloc::{AllocError, Global};
use crate::zerotrie_base::{Simple, TrieKey};

/// Items, each a key and its value, that are asked for by number. They are the same at every look.
pub(in crate::made::zerotrie_build) trait IndexedItems<'a>: Copy {
    /// Returns how many items there are.
    fn len(self) -> usize;

    /// Returns the item of number `index`, counted from 0: the bytes of its key, and its value.
    fn get(self, index: usize) -> (&'a [u8], usize);
}

impl<'a> IndexedItems<'a> for ByteSliceWithIndices<'a> {
    fn len(self) -> usize {
        ByteSliceWithIndices::len(self)
    }

    fn get(self, index: usize) -> (&'a [u8], usize) {
        ByteSliceWithIndices::get(self, index)
    }
}

impl<'a, Key: TrieKey> IndexedItems<'a> for &'a [(Key, usize)] {
    fn len(self) -> usize {
        (*self).len()
    }

    fn get(self, index: usize) -> (&'a [u8], usize) {
        let (key, value) = &self[index];
        (key.key_bytes(), *value)
    }
}

/// Returns the item of the number, its key by its bytes. After the last are an empty key and zero.
pub(in crate::made::zerotrie_build) fn item_at<Key: TrieKey>(given: &[(Key, usize)], index: usize) -> (&[u8], usize) {
    match given.get(index) {
        Some((key, value)) => (key.key_bytes(), *value),
        None => (&[], 0),
    }
}

/// A slice of items, each a key and its value, whose keys are bytes or text.
///
/// ```
/// # use zerotrie::{rstd::examples::*, zerotrie_build::*, zerotrie_base::*};
/// let items = [("ad", 22), ("adef", 33)];
/// let items = ByteSliceWithIndices::from_str_slice(&items);
/// assert_eq!(items.get(1), (b"adef".as_slice(), 33));
/// # Ok::<(), Fail>(())
/// ```
///
/// Every call returns what it would of the list of pairs of key bytes and value, in the order of the
/// slice. Only `to_vec_u8` allocates.
#[derive(Clone, Copy, Debug)]
pub enum ByteSliceWithIndices<'a> {
    /// Items whose keys are bytes.
    Bytes(&'a [(&'a [u8], usize)]),
    /// Items whose keys are text.
    Str(&'a [(&'a str, usize)]),
}

impl<'a> ByteSliceWithIndices<'a> {
    /// Returns the items of a slice whose keys are bytes.
    pub fn from_byte_slice(items: &'a [(&'a [u8], usize)]) -> Self {
        Self::Bytes(items)
    }

    /// Returns the items of a slice whose keys are text.
    pub fn from_str_slice(items: &'a [(&'a str, usize)]) -> Self {
        Self::Str(items)
    }

    /// Returns how many items there are.
    pub fn len(self) -> usize {
        match self {
            ByteSliceWithIndices::Bytes(items) => items.len(),
            ByteSliceWithIndices::Str(items) => items.len(),
        }
    }

    /// Returns the item of number `index`, counted from 0: the bytes of its key, and its value.
    pub fn get(self, index: usize) -> (&'a [u8], usize) {
        match self {
            ByteSliceWithIndices::Bytes(items) => items[index],
            ByteSliceWithIndices::Str(items) => (items[index].0.as_bytes(), items[index].1),
        }
    }

    /// Returns the last item, or `None` if there is none.
    pub fn last(self) -> Option<(&'a [u8], usize)> {
        let count = self.len();
        if count == 0 {
            return None;
        }
        Some(self.get(count - 1))
    }

    /// Returns the items with their keys as bytes, in memory of their own. Does not copy the keys'
    /// bytes.
    ///
    /// The only error is out of memory.
    pub fn to_vec_u8(self, alloc: Global) -> Result<Vec<(&'a [u8], usize)>, AllocError> {
        let mut items = Vec::with_capacity(alloc, self.len())?;
        for index in 0..self.len() {
            items.push(self.get(index))?;
        }
        Ok(items)
    }

    /// Returns whether the keys are strictly ascending by their bytes, so that none comes twice.
    pub fn is_sorted(self) -> bool {
        is_ordered::<Simple, Self>(self)
    }

    /// Returns whether every byte of every key is below 128.
    pub fn is_all_ascii(self) -> bool {
        are_keys::<Simple, Self>(self)
    }
}
