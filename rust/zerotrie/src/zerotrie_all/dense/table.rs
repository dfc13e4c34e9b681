// Made from crates/zerotrie/src/dense/table.rt by rust/make: edit that.
//! Dense tables, over owned and over borrowed bytes.

use crate::rstd::prelude::*;
use crate::zerotrie_ascii::ZeroTrieSimpleAscii;

/// A table from a prefix and a suffix to a number, over bytes of its own.
///
/// ```
/// # use zerotrie::{rstd::examples::*, zerotrie_all::*, zerotrie_base::*, zerotrie_core::*, zerotrie_build::*, zerotrie_any::*, zerotrie_ascii::*, zerotrie_hashed::*};
/// use zerotrie::zerotrie_all::dense::ZeroAsciiDenseSparse2dTrieOwned;
///
/// let mut row: BTreeMap<&str, usize> = BTreeMap::new(Global);
/// row.insert("US", 8)?;
/// let mut rows: BTreeMap<&str, BTreeMap<&str, usize>> = BTreeMap::new(Global);
/// rows.insert("en", row)?;
/// let table = ZeroAsciiDenseSparse2dTrieOwned::try_from_btree_map_str(Global, &rows, b'/')?;
/// assert_eq!(table.as_borrowed().get("en", "US"), Some(8));
/// # Ok::<(), Fail>(())
/// ```
///
/// A prefix names a row, and a suffix a value in it. Most values of a row with many suffixes are in
/// a matrix, of two bytes for each suffix, and the others in a trie.
#[derive(Debug)]
pub struct ZeroAsciiDenseSparse2dTrieOwned {
    pub(in crate::made::zerotrie_all) primary: ZeroTrieSimpleAscii<Vec<u8>>,
    pub(in crate::made::zerotrie_all) suffixes: ZeroTrieSimpleAscii<Vec<u8>>,
    pub(in crate::made::zerotrie_all) matrix: Vec<u8>,
    pub(in crate::made::zerotrie_all) suffix_count: u16,
    pub(in crate::made::zerotrie_all) delimiter: u8,
}

/// A table from a prefix and a suffix to a number, over borrowed bytes: a
/// `ZeroAsciiDenseSparse2dTrieOwned` that borrows.
#[derive(Debug)]
pub struct ZeroAsciiDenseSparse2dTrieBorrowed<'a> {
    pub(in crate::made::zerotrie_all) primary: ZeroTrieSimpleAscii<&'a [u8]>,
    pub(in crate::made::zerotrie_all) suffixes: ZeroTrieSimpleAscii<&'a [u8]>,
    pub(in crate::made::zerotrie_all) matrix: &'a [u8],
    pub(in crate::made::zerotrie_all) suffix_count: u16,
    pub(in crate::made::zerotrie_all) delimiter: u8,
}

impl ZeroAsciiDenseSparse2dTrieOwned {
    /// Returns the same table, which borrows these bytes. Does not allocate.
    #[inline]
    pub fn as_borrowed(&self) -> ZeroAsciiDenseSparse2dTrieBorrowed<'_> {
        ZeroAsciiDenseSparse2dTrieBorrowed {
            primary: self.primary.as_borrowed(),
            suffixes: self.suffixes.as_borrowed(),
            matrix: self.matrix.as_slice(),
            suffix_count: self.suffix_count,
            delimiter: self.delimiter,
        }
    }
}

impl PartialEq for ZeroAsciiDenseSparse2dTrieBorrowed<'_> {
    #[inline]
    fn eq(&self, other: &Self) -> bool {
        self.suffix_count == other.suffix_count
            && self.delimiter == other.delimiter
            && self.primary.as_bytes() == other.primary.as_bytes()
            && self.suffixes.as_bytes() == other.suffixes.as_bytes()
            && self.matrix == other.matrix
    }
}

impl Eq for ZeroAsciiDenseSparse2dTrieBorrowed<'_> {}

impl PartialEq for ZeroAsciiDenseSparse2dTrieOwned {
    #[inline]
    fn eq(&self, other: &Self) -> bool {
        self.as_borrowed() == other.as_borrowed()
    }
}

impl Eq for ZeroAsciiDenseSparse2dTrieOwned {}
