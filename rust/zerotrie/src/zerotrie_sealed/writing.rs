// Made from crates/zerotrie_sealed/src/writing.rt by rust/make: edit that.
//! Sealing: the header of a trie or of the table of an index, and what is behind it.

use crate::rstd::prelude::*;
use crate::zerotrie_sealed::blocks::add_sums;
use crate::zerotrie_sealed::checksum::crc32c_of_both;
use crate::rstd::alloc::{AllocError, Global};
use crate::zerotrie_base::TrieKind;

/// What each sealed file begins with.
pub(in crate::made::zerotrie_sealed) const MAGIC: [u8; 8] = [0x7A, 0x74, 0x72, 0x69, 0x89, 0x8A, 0x0D, 0x0A];

/// The version of the format.
pub(in crate::made::zerotrie_sealed) const VERSION: u16 = 1;

/// The number of bytes in front of the checksum.
pub(in crate::made::zerotrie_sealed) const FRONT_LEN: usize = 20;

/// The number of bytes in front of the trie or of the table of an index in a sealed file.
pub const HEADER_LEN: usize = 24;

/// The number in the header of an index that is sealed as a whole, as earlier versions did. No kind of
/// trie has it.
pub const INDEX_NUMBER: u16 = 24;

/// The number in the header of an index that is sealed in blocks. No kind of trie has it.
pub const BLOCKS_NUMBER: u16 = 25;

/// Returns the header of these bytes, with this number and this checksum.
fn header_with(number: u16, bytes: &[u8], checksum: u32) -> [u8; HEADER_LEN] {
    let [m0, m1, m2, m3, m4, m5, m6, m7] = MAGIC;
    let [v0, v1] = VERSION.to_le_bytes();
    let [k0, k1] = number.to_le_bytes();
    let [l0, l1, l2, l3, l4, l5, l6, l7] = (bytes.len() as u64).to_le_bytes();
    let [c0, c1, c2, c3] = checksum.to_le_bytes();
    [
        m0, m1, m2, m3, m4, m5, m6, m7, v0, v1, k0, k1, l0, l1, l2, l3, l4, l5, l6, l7, c0, c1, c2,
        c3,
    ]
}

/// Returns the header of these bytes, with this number.
fn header_as(number: u16, bytes: &[u8]) -> [u8; HEADER_LEN] {
    let unchecked = header_with(number, bytes, 0);
    let checksum = crc32c_of_both(&unchecked[..FRONT_LEN], bytes);
    header_with(number, bytes, checksum)
}

/// Returns the sealed file of these bytes, with this number.
fn seal_as(alloc: Global, number: u16, bytes: &[u8]) -> Result<Vec<u8>, AllocError> {
    let mut file = Vec::new(alloc);
    file.extend_from_slice(&header_as(number, bytes))?;
    file.extend_from_slice(bytes)?;
    Ok(file)
}

/// Returns the header of the sealed file of this trie: the file is the header, followed by the
/// trie.
///
/// ```
/// # use zerotrie::{rstd::examples::*, zerotrie_sealed::*, zerotrie_base::*};
/// let header = header_of(TrieKind::Hash, b"a\x85");
/// assert_eq!(header[..12], b"ztri\x89\x8A\r\n\x01\x00\x03\x00"[..]);
/// # Ok::<(), Fail>(())
/// ```
pub fn header_of(kind: TrieKind, trie: &[u8]) -> [u8; HEADER_LEN] {
    header_as(u16::from(kind.tag()), trie)
}

/// Returns the sealed file of this trie, which `open` reads.
///
/// ```
/// # use zerotrie::{rstd::examples::*, zerotrie_sealed::*, zerotrie_base::*};
/// let file = seal(Global, TrieKind::Hash, b"a\x85")?;
/// let sealed = open(file.as_slice())?;
/// assert_eq!(sealed.trie, b"a\x85".as_slice());
/// # Ok::<(), Fail>(())
/// ```
///
/// The bytes need not be a valid trie. An error means that an allocation failed.
pub fn seal(alloc: Global, kind: TrieKind, trie: &[u8]) -> Result<Vec<u8>, AllocError> {
    seal_as(alloc, u16::from(kind.tag()), trie)
}

/// Returns the table of an index: its length, and the checksum of each of its blocks.
fn table_of(alloc: Global, index: &[u8]) -> Result<Vec<u8>, AllocError> {
    let mut table = Vec::new(alloc);
    table.extend_from_slice(&(index.len() as u64).to_le_bytes())?;
    add_sums(index, &mut table)?;
    Ok(table)
}

/// Returns the sealed file of this index, which `open_index` reads, and `open` does not.
///
/// ```
/// # use zerotrie::{rstd::examples::*, zerotrie_sealed::*, zerotrie_base::*};
/// let file = seal_index(Global, b"an index")?;
/// assert_eq!(file[8..12], b"\x01\x00\x19\x00"[..]);
/// assert_eq!(file[24..32], 8u64.to_le_bytes()[..]);
/// assert_eq!(file[32..36], crc32c(b"an index").to_le_bytes()[..]);
/// assert_eq!(file[36..], b"an index"[..]);
/// # Ok::<(), Fail>(())
/// ```
///
/// In front of the index is a table, itself sealed: the length of the index, and the checksum of
/// each block of `BLOCK_LEN` bytes. So a block can be read and tested without the others. The bytes
/// need not be an index. An error means that an allocation failed.
pub fn seal_index(alloc: Global, index: &[u8]) -> Result<Vec<u8>, AllocError> {
    let table = table_of(alloc, index)?;
    let mut file = seal_as(alloc, BLOCKS_NUMBER, table.as_slice())?;
    file.extend_from_slice(index)?;
    Ok(file)
}
