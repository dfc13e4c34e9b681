// Made from crates/zerotrie_sealed/src/indexes.rt by rust/make: edit that.
//! Opening of indexes: an index, or its table, of a sealed file.

use crate::zerotrie_sealed::blocks::{are_sums, block_count};
use crate::zerotrie_sealed::reading::{SealError, has_checksum, length_in, number_in, whole_in};
use crate::zerotrie_sealed::writing::{BLOCKS_NUMBER, HEADER_LEN, INDEX_NUMBER};

/// The table in front of an index in blocks.
#[derive(Clone, Copy, PartialEq, Eq, Debug)]
pub struct IndexTable<'a> {
    /// The number of bytes of the index.
    pub index_len: usize,
    /// The CRC-32C of each block of the index, in four bytes, the lowest first.
    pub sums: &'a [u8],
}

/// Returns whether a number in a header is that of an index: `open` refuses both by `UnknownKind`.
///
/// ```
/// # use zerotrie::{rstd::examples::*, zerotrie_sealed::*, zerotrie_base::*};
/// let file = seal_index(Global, b"an index")?;
/// assert!(matches!(open(file.as_slice()), Err(SealError::UnknownKind(25))));
/// assert!(is_index_number(25) && is_index_number(24) && !is_index_number(3));
/// # Ok::<(), Fail>(())
/// ```
pub fn is_index_number(number: u16) -> bool {
    number == INDEX_NUMBER || number == BLOCKS_NUMBER
}

/// Returns the parts of a table, if it is as long as one of an index of the length in it.
fn parts_of(table: &[u8]) -> Option<IndexTable<'_>> {
    let (len, sums) = table.split_first_chunk::<8>()?;
    let index_len = usize::try_from(u64::from_le_bytes(*len)).ok()?;
    if sums.len() != 4 * block_count(index_len) {
        return None;
    }
    Some(IndexTable { index_len, sums })
}

/// Returns the parts of the table behind a header, if it has the checksum in the header and is as
/// long as it says.
fn table_behind<'a>(header: &[u8], table: &'a [u8]) -> Option<IndexTable<'a>> {
    if !has_checksum(header, table) {
        return None;
    }
    parts_of(table)
}

/// Returns the parts of the table in a file, and what is behind it.
fn table_in(file: &[u8]) -> Result<(IndexTable<'_>, &[u8]), SealError> {
    let (_, bytes) = file.split_at(HEADER_LEN);
    let Some((table, behind)) = bytes.split_at_checked(length_in(file)) else {
        return Err(SealError::CutShort);
    };
    let Some(table) = table_behind(file, table) else {
        return Err(SealError::Checksum);
    };
    Ok((table, behind))
}

/// Returns the index in a file that is sealed in blocks.
fn index_in(file: &[u8]) -> Result<&[u8], SealError> {
    let (table, index) = table_in(file)?;
    if index.len() < table.index_len {
        return Err(SealError::CutShort);
    }
    if table.index_len < index.len() {
        return Err(SealError::TooLong);
    }
    if !are_sums(table.sums, index) {
        return Err(SealError::Checksum);
    }
    Ok(index)
}

/// Returns the index in a sealed file: the bytes that were sealed. Does not copy or
/// validate them, and does not allocate.
///
/// ```
/// # use zerotrie::{rstd::examples::*, zerotrie_sealed::*, zerotrie_base::*};
/// let file = seal_index(Global, b"an index")?;
/// assert_eq!(open_index(file.as_slice())?, b"an index".as_slice());
/// assert!(open(file.as_slice()).err() == Some(SealError::UnknownKind(BLOCKS_NUMBER)));
///
/// let trie = seal(Global, TrieKind::Hash, b"a\x85")?;
/// assert!(open_index(trie.as_slice()).err() == Some(SealError::UnknownKind(3)));
/// # Ok::<(), Fail>(())
/// ```
///
/// A file is taken exactly if it is what `seal_index` returns for some bytes, or has them sealed as a
/// whole, as earlier versions did, and these are what is returned. What an error says is true of the
/// file, and the parts are looked at in the order of `open`; `UnknownKind` says that it is sealed as
/// no index. In a file of blocks, the table with its checksum comes first, then the length of the
/// index, and then the checksum of each block.
pub fn open_index(file: &[u8]) -> Result<&[u8], SealError> {
    match number_in(file)? {
        BLOCKS_NUMBER => index_in(file),
        INDEX_NUMBER => whole_in(file),
        number => Err(SealError::UnknownKind(number)),
    }
}

/// Returns the number of bytes of the table in front of an index, by the header of its file. It is
/// for files that are read at places; `open_index` needs no such call.
///
/// ```
/// # use zerotrie::{rstd::examples::*, zerotrie_sealed::*, zerotrie_base::*};
/// let file = seal_index(Global, b"an index")?;
/// let Some((header, _)) = file.split_first_chunk() else { return Ok(()) };
/// assert_eq!(table_len(header)?, 12);
/// # Ok::<(), Fail>(())
/// ```
///
/// The errors are `NoMagic`, `UnknownVersion` and `UnknownKind`, also of a file that is sealed as a
/// whole, with the number 24. The parts are looked at in this order.
pub fn table_len(header: &[u8; HEADER_LEN]) -> Result<usize, SealError> {
    let number = number_in(header)?;
    if number != BLOCKS_NUMBER {
        return Err(SealError::UnknownKind(number));
    }
    Ok(length_in(header))
}

/// Returns the table in front of an index, by the header and the bytes of the table, as many as
/// `table_len` returns. It says what each block of the index has to be.
///
/// ```
/// # use zerotrie::{rstd::examples::*, zerotrie_sealed::*, zerotrie_base::*};
/// let file = seal_index(Global, b"an index")?;
/// let Some((header, behind)) = file.split_first_chunk() else { return Ok(()) };
/// let (table, index) = behind.split_at(table_len(header)?);
/// let table = open_table(header, table)?;
/// assert_eq!(table.index_len, 8);
/// assert_eq!(table.sums, crc32c(index).to_le_bytes().as_slice());
/// # Ok::<(), Fail>(())
/// ```
///
/// What an error says is true of each file that begins with these bytes: none is a sealed index but
/// one as a whole, of which `UnknownKind(24)` is returned. The header is looked at first, then the
/// length of the table and its checksum.
pub fn open_table<'a>(
    header: &[u8; HEADER_LEN],
    table: &'a [u8],
) -> Result<IndexTable<'a>, SealError> {
    let len = table_len(header)?;
    if table.len() < len {
        return Err(SealError::CutShort);
    }
    if len < table.len() {
        return Err(SealError::TooLong);
    }
    let Some(table) = table_behind(header, table) else {
        return Err(SealError::Checksum);
    };
    Ok(table)
}
