// Made from crates/zerotrie_core/src/well_formed/known_table.rt by rust/make: edit that.
//! Validation of hashed tables, which remembers the last valid one.
//!
//! Many branches have the same table. Then the hashes of its edges are computed once.

use crate::zerotrie_base::PerfectByteHashMap;

fn is_perfect(table: &[u8], edges: &[u8]) -> bool {
    for index in 0..edges.len() {
        if PerfectByteHashMap::from_bytes(table).get(edges[index]) != Some(index) {
            return false;
        }
    }
    true
}

/// The last valid hashed table, and the number of edges at its end. At first it is empty.
pub(in crate::made::zerotrie_core) struct KnownTable<'a> {
    table: &'a [u8],
    edges: usize,
}

impl<'a> KnownTable<'a> {
    #[inline(always)]
    pub(in crate::made::zerotrie_core) fn none() -> Self {
        KnownTable {
            table: &[],
            edges: 0,
        }
    }

    /// Returns whether a hashed table that ends with the edges has each of them at its place. A
    /// table that equals the last valid one is valid.
    #[inline(always)]
    pub(in crate::made::zerotrie_core) fn is_perfect(&mut self, table: &'a [u8], edges: &[u8]) -> bool {
        if edges.len() == self.edges && table == self.table {
            return true;
        }
        let perfect = is_perfect(table, edges);
        if perfect {
            *self = KnownTable {
                table,
                edges: edges.len(),
            };
        }
        perfect
    }
}
