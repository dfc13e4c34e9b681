// Made from crates/zerotrie/src/dense/record.rt by rust/make: edit that.
//! Records: a dense table as one sequence of bytes.

use crate::rstd::prelude::*;
use crate::zerotrie_all::dense::table::ZeroAsciiDenseSparse2dTrieBorrowed;
use crate::rstd::alloc::{AllocError, Global};
use crate::zerotrie_ascii::ZeroTrieSimpleAscii;

/// Bytes are not the record of a dense table.
#[derive(Clone, PartialEq, Eq, Debug)]
#[cfg_attr(not(feature = "__internal"), non_exhaustive)]
pub enum RecordError {
    /// There are fewer bytes than the first ones say.
    Truncated,
    /// There are more bytes than the first ones say.
    TrailingBytes,
}

impl core::fmt::Display for RecordError {
    #[inline]
    fn fmt(&self, f: &mut core::fmt::Formatter<'_>) -> core::fmt::Result {
        match self {
            Self::Truncated => write!(f, "Truncated"),
            Self::TrailingBytes => write!(f, "TrailingBytes"),
        }
    }
}

impl core::error::Error for RecordError {}

impl RecordError {
    /// Returns what the error means, and what to do about it.
    #[inline]
    pub fn advice(&self) -> &'static str {
        match self {
            RecordError::Truncated => "the record is cut: give all of its bytes",
            RecordError::TrailingBytes => "bytes follow the record: give its bytes alone",
        }
    }
}

/// Returns the little-endian number in the eight bytes at `place`.
#[inline]
fn number_in(bytes: &[u8], place: usize) -> usize {
    let (_, rest) = bytes.split_at(place);
    let number = u64::from_le_bytes([
        rest[0], rest[1], rest[2], rest[3], rest[4], rest[5], rest[6], rest[7],
    ]);
    usize::try_from(number).unwrap_or(usize::MAX)
}

impl<'a> ZeroAsciiDenseSparse2dTrieBorrowed<'a> {
    /// Returns the record of the table, which `try_from_record_bytes` reads.
    ///
    /// It has, with numbers in little-endian order: the number of suffixes in two bytes, the
    /// delimiter, the lengths of the two tries and the number of cells in eight bytes each, the two
    /// tries, and the cells of the matrix in two bytes each.
    ///
    /// An error means that an allocation failed.
    #[inline]
    pub fn to_record_bytes(&self, alloc: Global) -> Result<Vec<u8>, AllocError> {
        let primary = self.primary.as_bytes();
        let suffixes = self.suffixes.as_bytes();
        let mut record = Vec::new(alloc);
        record.extend_from_slice(&self.suffix_count.to_le_bytes())?;
        record.extend_from_slice(&[self.delimiter])?;
        record.extend_from_slice(&(primary.len() as u64).to_le_bytes())?;
        record.extend_from_slice(&(suffixes.len() as u64).to_le_bytes())?;
        record.extend_from_slice(&((self.matrix.len() / 2) as u64).to_le_bytes())?;
        record.extend_from_slice(primary)?;
        record.extend_from_slice(suffixes)?;
        record.extend_from_slice(self.matrix)?;
        Ok(record)
    }

    /// Returns the table of a record, which borrows its bytes. Does not allocate.
    ///
    /// ```
    /// # use zerotrie::{rstd::examples::*, zerotrie_all::*, zerotrie_base::*, zerotrie_core::*, zerotrie_build::*, zerotrie_any::*, zerotrie_ascii::*, zerotrie_hashed::*};
    /// use zerotrie::zerotrie_all::dense::{ZeroAsciiDenseSparse2dTrieBorrowed, ZeroAsciiDenseSparse2dTrieOwned};
    ///
    /// let mut row: BTreeMap<&str, usize> = BTreeMap::new(Global);
    /// row.insert("US", 8)?;
    /// let mut rows: BTreeMap<&str, BTreeMap<&str, usize>> = BTreeMap::new(Global);
    /// rows.insert("en", row)?;
    /// let table = ZeroAsciiDenseSparse2dTrieOwned::try_from_btree_map_str(Global, &rows, b'/')?;
    /// let record = table.as_borrowed().to_record_bytes(Global)?;
    /// let again = ZeroAsciiDenseSparse2dTrieBorrowed::try_from_record_bytes(record.as_slice())?;
    /// assert!(again == table.as_borrowed());
    /// # Ok::<(), Fail>(())
    /// ```
    ///
    /// The first 27 bytes of a record say how many it has. With fewer the error is `Truncated`,
    /// with more it is `TrailingBytes`. Does not validate the tries and the matrix.
    #[inline]
    pub fn try_from_record_bytes(bytes: &'a [u8]) -> Result<Self, RecordError> {
        if bytes.len() < 27 {
            return Err(RecordError::Truncated);
        }
        let primary_len = number_in(bytes, 3);
        let suffixes_len = number_in(bytes, 11);
        let cells = number_in(bytes, 19);
        let asked = 27 + primary_len as u128 + suffixes_len as u128 + 2 * (cells as u128);
        let given = bytes.len() as u128;
        if given < asked {
            return Err(RecordError::Truncated);
        }
        if asked < given {
            return Err(RecordError::TrailingBytes);
        }
        let suffix_count = u16::from_le_bytes([bytes[0], bytes[1]]);
        let delimiter = bytes[2];
        let (_, rest) = bytes.split_at(27);
        let (primary, rest) = rest.split_at(primary_len);
        let (suffixes, matrix) = rest.split_at(suffixes_len);
        Ok(ZeroAsciiDenseSparse2dTrieBorrowed {
            primary: ZeroTrieSimpleAscii::from_bytes(primary),
            suffixes: ZeroTrieSimpleAscii::from_bytes(suffixes),
            matrix,
            suffix_count,
            delimiter,
        })
    }
}
