//! Dense tables: from a prefix and a suffix to a number, where many prefixes share suffixes.

pub use crate::zerotrie_all::dense::RecordError;

use crate::listing::allocated;
use crate::rstd::alloc::Global;
use crate::rstd::collections::BTreeMap as Map;
use crate::zerotrie_all::dense;
use crate::{ZeroTrieBuildError, ZeroTrieSimpleAscii};
use alloc::collections::BTreeMap;
use alloc::vec::Vec;
use core::fmt;

/// A dense table that owns its bytes.
///
/// ```
/// use std::collections::BTreeMap;
/// use zerotrie::dense::ZeroAsciiDenseSparse2dTrieOwned;
///
/// let rows = BTreeMap::from([("en", BTreeMap::from([("GB", 1), ("US", 2)])), ("fr", BTreeMap::from([("CA", 3)]))]);
/// let table = ZeroAsciiDenseSparse2dTrieOwned::try_from_btree_map_str(&rows, b'-')?;
/// assert_eq!(table.as_borrowed().get("en", "US"), Some(2));
/// assert_eq!(table.as_borrowed().get("fr", "US"), None);
/// # Ok::<(), zerotrie::ZeroTrieBuildError>(())
/// ```
#[derive(PartialEq, Eq)]
pub struct ZeroAsciiDenseSparse2dTrieOwned(dense::ZeroAsciiDenseSparse2dTrieOwned);

/// A dense table over borrowed bytes.
///
/// ```
/// use std::collections::BTreeMap;
/// use zerotrie::dense::{ZeroAsciiDenseSparse2dTrieBorrowed, ZeroAsciiDenseSparse2dTrieOwned};
///
/// let rows = BTreeMap::from([("en", BTreeMap::from([("GB", 1), ("US", 2)]))]);
/// let record = ZeroAsciiDenseSparse2dTrieOwned::try_from_btree_map_str(&rows, b'-')?.as_borrowed().to_record_bytes();
/// let table = ZeroAsciiDenseSparse2dTrieBorrowed::try_from_record_bytes(&record).unwrap();
/// assert_eq!(table.get("en", "GB"), Some(1));
/// # Ok::<(), zerotrie::ZeroTrieBuildError>(())
/// ```
#[derive(PartialEq, Eq)]
pub struct ZeroAsciiDenseSparse2dTrieBorrowed<'a>(dense::ZeroAsciiDenseSparse2dTrieBorrowed<'a>);

/// Prints the parts of a table, which its record has, as the crate does.
struct Parts(&'static str, Vec<u8>);

/// Prints cells as the crate does.
struct Cells(Vec<u16>);

impl fmt::Debug for Cells {
    #[inline]
    fn fmt(&self, f: &mut fmt::Formatter<'_>) -> fmt::Result {
        f.debug_tuple("ZeroVec").field(&self.0).finish()
    }
}

impl fmt::Debug for Parts {
    #[inline]
    fn fmt(&self, f: &mut fmt::Formatter<'_>) -> fmt::Result {
        let (head, rest) = self.1.split_at(27);
        let number = |at: usize| head[at..at + 8].iter().rev().fold(0, |n, byte| n << 8 | u64::from(*byte)) as usize;
        let (primary, rest) = rest.split_at(number(3));
        let (suffixes, cells) = rest.split_at(number(11));
        let cells = cells.chunks_exact(2).map(|cell| u16::from_le_bytes([cell[0], cell[1]]));
        f.debug_struct(self.0)
            .field("primary", &ZeroTrieSimpleAscii::from_bytes(primary))
            .field("suffixes", &ZeroTrieSimpleAscii::from_bytes(suffixes))
            .field("dense", &Cells(cells.collect()))
            .field("suffix_count", &u16::from_le_bytes([head[0], head[1]]))
            .field("delimiter", &head[2])
            .finish()
    }
}

impl fmt::Debug for ZeroAsciiDenseSparse2dTrieOwned {
    #[inline]
    fn fmt(&self, f: &mut fmt::Formatter<'_>) -> fmt::Result {
        let record = self.as_borrowed().to_record_bytes();
        Parts("ZeroAsciiDenseSparse2dTrieOwned", record).fmt(f)
    }
}

impl fmt::Debug for ZeroAsciiDenseSparse2dTrieBorrowed<'_> {
    #[inline]
    fn fmt(&self, f: &mut fmt::Formatter<'_>) -> fmt::Result {
        Parts("ZeroAsciiDenseSparse2dTrieBorrowed", self.to_record_bytes()).fmt(f)
    }
}

impl ZeroAsciiDenseSparse2dTrieOwned {
    /// Builds a table, with a delimiter that is in no prefix and no suffix.
    ///
    /// ```
    /// use std::collections::BTreeMap;
    /// use zerotrie::ZeroTrieBuildError;
    /// use zerotrie::dense::ZeroAsciiDenseSparse2dTrieOwned;
    ///
    /// let rows = BTreeMap::from([("aa/bb", BTreeMap::from([("CCC", 1)]))]);
    /// let table = ZeroAsciiDenseSparse2dTrieOwned::try_from_btree_map_str(&rows, b'/');
    /// assert_eq!(table, Err(ZeroTrieBuildError::IllegalDelimiter));
    /// ```
    #[inline]
    pub fn try_from_btree_map_str(
        rows: &BTreeMap<&str, BTreeMap<&str, usize>>,
        delimiter: u8,
    ) -> Result<Self, ZeroTrieBuildError> {
        let rows: BTreeMap<&str, Map<&str, usize>> = rows.iter().map(|(prefix, row)| (*prefix, row.clone().into())).collect();
        dense::ZeroAsciiDenseSparse2dTrieOwned::try_from_btree_map_str(Global, &rows.into(), delimiter).map(Self)
    }

    /// Returns the same table over borrowed bytes.
    ///
    /// ```
    /// use std::collections::BTreeMap;
    /// use zerotrie::dense::ZeroAsciiDenseSparse2dTrieOwned;
    ///
    /// let rows = BTreeMap::from([("en", BTreeMap::from([("GB", 1)]))]);
    /// let table = ZeroAsciiDenseSparse2dTrieOwned::try_from_btree_map_str(&rows, b'-')?;
    /// assert_eq!(table.as_borrowed().get("en", "GB"), Some(1));
    /// # Ok::<(), zerotrie::ZeroTrieBuildError>(())
    /// ```
    #[inline]
    pub fn as_borrowed(&self) -> ZeroAsciiDenseSparse2dTrieBorrowed<'_> {
        ZeroAsciiDenseSparse2dTrieBorrowed(self.0.as_borrowed())
    }
}

impl<'a> ZeroAsciiDenseSparse2dTrieBorrowed<'a> {
    /// Returns the value of a prefix and a suffix.
    ///
    /// ```
    /// use std::collections::BTreeMap;
    /// use zerotrie::dense::ZeroAsciiDenseSparse2dTrieOwned;
    ///
    /// let rows = BTreeMap::from([("en", BTreeMap::from([("GB", 1)]))]);
    /// let table = ZeroAsciiDenseSparse2dTrieOwned::try_from_btree_map_str(&rows, b'-')?;
    /// assert_eq!(table.as_borrowed().get("en", "US"), None);
    /// # Ok::<(), zerotrie::ZeroTrieBuildError>(())
    /// ```
    #[inline]
    pub fn get(&self, prefix: &str, suffix: &str) -> Option<usize> {
        self.0.get(prefix, suffix)
    }

    /// Returns the same for bytes that need not be UTF-8.
    ///
    /// ```
    /// use std::collections::BTreeMap;
    /// use zerotrie::dense::ZeroAsciiDenseSparse2dTrieOwned;
    ///
    /// let rows = BTreeMap::from([("en", BTreeMap::from([("GB", 1)]))]);
    /// let table = ZeroAsciiDenseSparse2dTrieOwned::try_from_btree_map_str(&rows, b'-')?;
    /// assert_eq!(table.as_borrowed().get_bytes(b"en", b"\xFF"), None);
    /// # Ok::<(), zerotrie::ZeroTrieBuildError>(())
    /// ```
    #[inline]
    pub fn get_bytes(&self, prefix: &[u8], suffix: &[u8]) -> Option<usize> {
        self.0.get_bytes(prefix, suffix)
    }

    /// Returns the table as one sequence of bytes.
    ///
    /// ```
    /// use std::collections::BTreeMap;
    /// use zerotrie::dense::{ZeroAsciiDenseSparse2dTrieBorrowed, ZeroAsciiDenseSparse2dTrieOwned};
    ///
    /// let rows = BTreeMap::from([("en", BTreeMap::from([("GB", 1)]))]);
    /// let table = ZeroAsciiDenseSparse2dTrieOwned::try_from_btree_map_str(&rows, b'-')?;
    /// let record = table.as_borrowed().to_record_bytes();
    /// assert_eq!(ZeroAsciiDenseSparse2dTrieBorrowed::try_from_record_bytes(&record).unwrap(), table.as_borrowed());
    /// # Ok::<(), zerotrie::ZeroTrieBuildError>(())
    /// ```
    #[inline]
    pub fn to_record_bytes(&self) -> Vec<u8> {
        allocated(self.0.to_record_bytes(Global)).into_inner()
    }

    /// Returns the table in the bytes of a record. Validates no more than its length.
    ///
    /// ```
    /// use zerotrie::dense::{RecordError, ZeroAsciiDenseSparse2dTrieBorrowed};
    ///
    /// let table = ZeroAsciiDenseSparse2dTrieBorrowed::try_from_record_bytes(b"short");
    /// assert_eq!(table, Err(RecordError::Truncated));
    /// ```
    #[inline]
    pub fn try_from_record_bytes(record: &'a [u8]) -> Result<Self, RecordError> {
        dense::ZeroAsciiDenseSparse2dTrieBorrowed::try_from_record_bytes(record).map(Self)
    }
}
