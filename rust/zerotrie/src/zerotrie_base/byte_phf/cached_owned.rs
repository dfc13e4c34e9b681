// Made from crates/zerotrie_base/src/byte_phf/cached_owned.rt by rust/make: edit that.
//! Caches of tables.

use crate::rstd::prelude::*;
use super::{PerfectByteHashMap, table_of};
use crate::zerotrie_base::error::ZeroTrieBuildError;
use crate::rstd::alloc::{Allocator, Global};
use crate::rstd::collections::BTreeMap;

/// A cache of tables by their keys.
///
/// ```
/// # use zerotrie::{rstd::examples::*, zerotrie_base::*};
/// let mut cache = PerfectByteHashMapCacheOwned::new_empty(Global);
/// let keys = Vec::from_slice(Global, b"aceg")?;
/// assert!(are_distinct(keys.as_slice()));
/// assert_eq!(cache.try_get_or_insert(keys)?.get(b'e'), Some(0));
/// # Ok::<(), Fail>(())
/// ```
///
/// The same keys in another order have a table of their own.
#[derive(Debug)]
pub struct PerfectByteHashMapCacheOwned<A: Allocator = Global> {
    alloc: A,
    tables: BTreeMap<Vec<u8, A>, Vec<u8, A>, A>,
}

impl<A: Allocator + Copy> PerfectByteHashMapCacheOwned<A> {
    /// Returns an empty cache. Does not allocate.
    pub fn new_empty(alloc: A) -> Self {
        PerfectByteHashMapCacheOwned {
            alloc,
            tables: BTreeMap::new(alloc),
        }
    }

    /// Returns the table of the keys. Builds and adds it if the cache has none of these keys in
    /// this order; otherwise allocates nothing and changes nothing.
    ///
    /// The keys must be distinct, which [`super::are_distinct`] tests. If the table has to be
    /// built, the errors are those of [`PerfectByteHashMap::try_new`]; after an error the cache is
    /// unchanged.
    pub fn try_get_or_insert(
        &mut self,
        keys: Vec<u8>,
    ) -> Result<PerfectByteHashMap<&[u8]>, ZeroTrieBuildError> {
        self.hold(keys.as_slice())?;
        Ok(self.held_table(keys.as_slice()))
    }

    /// Returns whether the cache has a table of these keys.
    fn has(&self, keys: &[u8]) -> bool {
        self.tables.contains_key(keys)
    }

    fn add(&mut self, keys: &[u8]) -> Result<(), ZeroTrieBuildError> {
        let table = table_of(self.alloc, keys)?;
        let copy = Vec::from_slice(self.alloc, keys)?;
        self.tables.insert(copy, table)?;
        Ok(())
    }

    /// Adds the table of these keys if it is not there.
    fn hold(&mut self, keys: &[u8]) -> Result<(), ZeroTrieBuildError> {
        if self.has(keys) {
            return Ok(());
        }
        self.add(keys)
    }

    /// Returns the table of these keys, which must be there.
    fn held_table(&self, keys: &[u8]) -> PerfectByteHashMap<&[u8]> {
        match self.tables.get(keys) {
            Some(table) => PerfectByteHashMap::from_bytes(table.as_slice()),
            None => unreachable!(),
        }
    }
}
