// Made from crates/zerotrie_sealed/src/reading.rt by rust/make: edit that.
//! Opening: the trie of a sealed file, or what is wrong with the file.

use crate::zerotrie_sealed::checksum::crc32c_of_both;
use crate::zerotrie_sealed::writing::{FRONT_LEN, HEADER_LEN, MAGIC, VERSION};
use crate::rstd::io;
use crate::rstd::io::ErrorKind;
use crate::zerotrie_base::TrieKind;

/// Why a file is not taken for a sealed one.
#[derive(Clone, Copy, PartialEq, Eq, Debug)]
#[cfg_attr(not(feature = "__internal"), non_exhaustive)]
pub enum SealError {
    /// The file does not begin with the magic of sealed files.
    NoMagic,
    /// The file has another version of the format, which is given.
    UnknownVersion(u16),
    /// The number in the file, which is given, is that of no kind; for `open_index`, it is not that
    /// of an index.
    UnknownKind(u16),
    /// The file has fewer bytes than its header says, or not even a header; of an index in blocks,
    /// fewer than its table says.
    CutShort,
    /// The file has more bytes than its header says; of an index in blocks, than its table says.
    TooLong,
    /// The checksum in the header is not that of the rest of the file; of an index in blocks, it is
    /// not that of the table, or the table is not that of the index.
    Checksum,
}

impl core::fmt::Display for SealError {
    #[inline]
    fn fmt(&self, f: &mut core::fmt::Formatter<'_>) -> core::fmt::Result {
        match self {
            Self::NoMagic => write!(f, "the file does not begin as a sealed one: give its bytes, not its path"),
            Self::UnknownVersion(field) => write!(f, "the file has the version {field} of the format, and only version 1 is known"),
            Self::UnknownKind(field) => write!(f, "the file has the number {field}, which stands for nothing that is asked for"),
            Self::CutShort => write!(f, "the file is cut short: get all of it"),
            Self::TooLong => write!(f, "bytes follow what is sealed: get the file alone"),
            Self::Checksum => write!(f, "the file is damaged: its bytes do not have the checksum that it was written with"),
        }
    }
}

impl core::error::Error for SealError {}

/// Of the kind `InvalidData`, for those who read files at places.
impl From<SealError> for io::Error {
    fn from(_: SealError) -> Self {
        io::Error::from(ErrorKind::InvalidData)
    }
}

/// What a sealed file has.
#[derive(Clone, Copy, PartialEq, Eq, Debug)]
pub struct Sealed<'a> {
    /// The kind of the trie.
    pub kind: TrieKind,
    /// The bytes of the trie.
    pub trie: &'a [u8],
}

/// Returns whether a file begins as each sealed one does, with the magic of its 8 bytes.
///
/// ```
/// # use zerotrie::{rstd::examples::*, zerotrie_sealed::*, zerotrie_base::*};
/// let file = seal(Global, TrieKind::Simple, b"a\x85")?;
/// assert!(begins_sealed(file.as_slice()));
/// assert!(!begins_sealed(b"\x00a\x85"));
/// # Ok::<(), Fail>(())
/// ```
///
/// No tagged trie does, as the first byte of the magic is the number of no kind.
pub fn begins_sealed(file: &[u8]) -> bool {
    file.starts_with(&MAGIC)
}

/// Returns whether bytes are a beginning of the magic, as of a sealed file that is not yet written.
///
/// ```
/// # use zerotrie::{rstd::examples::*, zerotrie_sealed::*, zerotrie_base::*};
/// let file = seal(Global, TrieKind::Simple, b"a\x85")?;
/// let (magic, _) = file.as_slice().split_at(8);
/// assert!(begins_magic(magic));
/// assert!(begins_magic(b"zt"));
/// assert!(begins_magic(b""));
/// assert!(!begins_magic(file.as_slice()));
/// # Ok::<(), Fail>(())
/// ```
pub fn begins_magic(bytes: &[u8]) -> bool {
    MAGIC.starts_with(bytes)
}

/// Returns the number in the header of a file, if it begins as a sealed one and its version is
/// known.
pub(in crate::made::zerotrie_sealed) fn number_in(file: &[u8]) -> Result<u16, SealError> {
    if !begins_sealed(file) {
        return Err(SealError::NoMagic);
    }
    if file.len() < HEADER_LEN {
        return Err(SealError::CutShort);
    }
    let (_, numbers) = file.split_at(8);
    let version = u16::from_le_bytes([numbers[0], numbers[1]]);
    if version != VERSION {
        return Err(SealError::UnknownVersion(version));
    }
    let (_, numbers) = file.split_at(10);
    Ok(u16::from_le_bytes([numbers[0], numbers[1]]))
}

/// Returns the kind that a number is of.
fn kind_of(number: u16) -> Option<TrieKind> {
    let [low, high] = number.to_le_bytes();
    match TrieKind::of_tag(low) {
        Some(kind) if high == 0 => Some(kind),
        _ => None,
    }
}

/// Returns the length in the header of a file.
pub(in crate::made::zerotrie_sealed) fn length_in(file: &[u8]) -> usize {
    let (_, numbers) = file.split_at(12);
    let len = u64::from_le_bytes([
        numbers[0], numbers[1], numbers[2], numbers[3], numbers[4], numbers[5], numbers[6],
        numbers[7],
    ]);
    usize::try_from(len).unwrap_or(usize::MAX)
}

/// Returns the bytes behind the header of a file, if they are as many as it says.
fn bytes_in(file: &[u8]) -> Result<&[u8], SealError> {
    let length = length_in(file);
    let (_, bytes) = file.split_at(HEADER_LEN);
    if bytes.len() < length {
        return Err(SealError::CutShort);
    }
    if length < bytes.len() {
        return Err(SealError::TooLong);
    }
    Ok(bytes)
}

/// Returns whether the checksum in the header of a file is that of the rest of the header and of
/// these bytes.
pub(in crate::made::zerotrie_sealed) fn has_checksum(file: &[u8], bytes: &[u8]) -> bool {
    let (front, numbers) = file.split_at(FRONT_LEN);
    let checksum = u32::from_le_bytes([numbers[0], numbers[1], numbers[2], numbers[3]]);
    checksum == crc32c_of_both(front, bytes)
}

/// Returns the bytes behind the header of a file, if its length and its checksum are right.
pub(in crate::made::zerotrie_sealed) fn whole_in(file: &[u8]) -> Result<&[u8], SealError> {
    let bytes = bytes_in(file)?;
    if !has_checksum(file, bytes) {
        return Err(SealError::Checksum);
    }
    Ok(bytes)
}

/// Returns the kind and the trie of a sealed file. Does not copy or validate the trie, and does not
/// allocate.
///
/// ```
/// # use zerotrie::{rstd::examples::*, zerotrie_sealed::*, zerotrie_base::*};
/// let mut file = seal(Global, TrieKind::Hash, b"a\x85")?;
/// let sealed = open(file.as_slice())?;
/// assert_eq!(sealed.kind, TrieKind::Hash);
/// assert_eq!(sealed.trie, b"a\x85".as_slice());
///
/// assert!(open(b"\x03a\x85").err() == Some(SealError::NoMagic));
/// file.push(0)?;
/// assert!(open(file.as_slice()).err() == Some(SealError::TooLong));
/// # Ok::<(), Fail>(())
/// ```
///
/// A file is taken exactly if it is what `seal` returns for some kind and some bytes, and these are
/// what is returned. What an error says is true of the file. If more than one is, the magic is
/// looked at first, then whether there is a header, the version, the kind, the length and the
/// checksum.
pub fn open(file: &[u8]) -> Result<Sealed<'_>, SealError> {
    let number = number_in(file)?;
    let Some(kind) = kind_of(number) else {
        return Err(SealError::UnknownKind(number));
    };
    let trie = whole_in(file)?;
    Ok(Sealed { kind, trie })
}
