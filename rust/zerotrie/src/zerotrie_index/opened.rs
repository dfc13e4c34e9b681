// Made from crates/zerotrie_index/src/opened.rt by rust/make: edit that.
//! Look-ups in an index, of which what all look-ups read is read once.

use crate::zerotrie_index::hash::hash_of;
use crate::zerotrie_index::laws;
use crate::zerotrie_index::reader::{Parts, bucket_of, entries_at, find_in, parts_of};

/// Returns the value of a key in an index that has these parts.
#[inline(always)]
fn value_in(parts: Parts<'_>, key: &[u8]) -> Option<usize> {
    let hash = hash_of(parts.seed, key);
    let number = bucket_of(parts.count, hash) as usize;
    let (entry, next) = entries_at(parts.table, number)?;
    if (entry >> (hash % 32)) % 2 == 0 {
        return None;
    }
    let records = parts
        .pool
        .get((entry >> 32) as usize..(next >> 32) as usize)?;
    find_in(records, key)
}

/// An index that is open for look-ups: where its table and its pool are was read once.
///
/// ```
/// # use zerotrie::{rstd::examples::*, zerotrie_index::*, zerotrie_base::*, zerotrie_core::*, zerotrie_sealed::*};
/// let index = ZeroIndex::try_from_sorted_slice(Global, &[("ad", 22), ("adef", 33)])?;
/// let opened = OpenedIndex::new(index.as_bytes());
/// assert_eq!(opened.get(b"adef"), Some(33));
/// assert_eq!(opened.get(b"ade"), None);
/// # Ok::<(), Fail>(())
/// ```
///
/// On malformed bytes results are unspecified; no call panics or reads outside them.
pub struct OpenedIndex<'a> {
    bytes: &'a [u8],
    parts: Parts<'a>,
}

impl<'a> OpenedIndex<'a> {
    /// Opens the index of these bytes. Does not validate them, and does not allocate.
    #[inline(always)]
    pub fn new(bytes: &'a [u8]) -> Self {
        match parts_of(bytes) {
            Some(parts) => OpenedIndex { bytes, parts },
            None => OpenedIndex {
                bytes,
                parts: Parts {
                    seed: 0,
                    count: 0,
                    table: &[],
                    pool: &[],
                },
            },
        }
    }

    /// Returns the bytes.
    pub fn as_bytes(&self) -> &'a [u8] {
        self.bytes
    }

    /// Returns the value of a key.
    #[inline(always)]
    pub fn get(&self, key: &[u8]) -> Option<usize> {
        laws::built_answers_as_given();
        value_in(self.parts, key)
    }
}

/// Returns the value of a key in an index.
pub fn get(bytes: &[u8], key: &[u8]) -> Option<usize> {
    OpenedIndex::new(bytes).get(key)
}
