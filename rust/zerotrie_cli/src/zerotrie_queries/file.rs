// Made from crates/zerotrie_queries/src/file.rt by rust/make: edit that.
//! The trie in a file.

use crate::rstd::alloc::Global;
use crate::zerotrie_any::TagError;
use crate::zerotrie_core::{Fault, Trie, TrieKind, TrieRef};
use crate::zerotrie_sealed::{SealError, begins_sealed};

/// Why a file has no trie.
#[derive(Clone, PartialEq, Eq, Debug)]
pub enum OpenError {
    /// It does not begin with the number of a kind.
    BadTag(TagError),
    /// It begins as a sealed file, and this part of it fails.
    Damaged(SealError),
    /// Its bytes are no valid trie of this kind, and this is their first fault.
    NotWellFormed(TrieKind, Fault),
    /// Its bytes are no valid trie, and the memory for the search of their first fault was refused.
    OutOfMemory,
}

impl From<TagError> for OpenError {
    fn from(why: TagError) -> Self {
        OpenError::BadTag(why)
    }
}

/// Returns whether a file is read as a sealed one: no kind is named, and the file begins as one.
fn is_sealed(named: Option<TrieKind>, file: &[u8]) -> bool {
    named.is_none() && begins_sealed(file)
}

/// Returns the trie in tagged bytes, which begin with the number of its kind. Does not validate the
/// bytes after the number.
///
/// The error is `Empty` exactly if there are no bytes, and `InvalidTag` exactly if the first is the
/// number of no kind.
///
/// ```
/// let trie = of_tagged(b"\x08aB\x85").map_err(|_| "no trie")?;
/// assert_eq!(rt; (trie.kind, trie.get(b"Ab")), (TrieKind::Ignore, Some(5)));
/// ```
pub fn of_tagged(file: &[u8]) -> Result<TrieRef<'_>, TagError> {
    let [number, bytes @ ..] = file else {
        return Err(TagError::Empty);
    };
    match TrieKind::of_tag(*number) {
        Some(kind) => Ok(TrieRef { kind, bytes }),
        None => Err(TagError::InvalidTag),
    }
}

/// Returns the trie of a file that begins with the magic.
fn of_sealed(file: &[u8]) -> Result<TrieRef<'_>, OpenError> {
    match crate::zerotrie_sealed::open(file) {
        Ok(sealed) => Ok(TrieRef {
            kind: sealed.kind,
            bytes: sealed.trie,
        }),
        Err(why) => Err(OpenError::Damaged(why)),
    }
}

/// Returns the trie of a file that is read as bare or as tagged bytes.
fn of_unsealed(named: Option<TrieKind>, file: &[u8]) -> Result<TrieRef<'_>, TagError> {
    match named {
        Some(kind) => Ok(TrieRef { kind, bytes: file }),
        None => of_tagged(file),
    }
}

/// Opens a file without a test of its bytes. If they are malformed, each call on them returns,
/// and the result is unspecified.
///
/// The file is read as by `open`. It is an error exactly if it begins as a sealed one and its
/// parts do not agree, or if its kind is not known.
pub fn open_unchecked(named: Option<TrieKind>, file: &[u8]) -> Result<TrieRef<'_>, OpenError> {
    if is_sealed(named, file) {
        return of_sealed(file);
    }
    Ok(of_unsealed(named, file)?)
}

/// Opens a file. If a kind is named, the file is bare bytes of it. Else it is a sealed file if
/// it begins as one, and if not, its first byte is the number of its kind.
///
/// Bare bytes and those after the number of a kind are validated: it is an error exactly if
/// the file has no trie. A sealed file is taken exactly if its parts agree, and its bytes are
/// not validated: they are those that were sealed, and each call on them is one on these.
///
/// Only the search of the first fault takes memory.
pub fn open(alloc: Global, named: Option<TrieKind>, file: &[u8]) -> Result<TrieRef<'_>, OpenError> {
    if is_sealed(named, file) {
        return of_sealed(file);
    }
    let trie = of_unsealed(named, file)?;
    if trie.is_well_formed() {
        return Ok(trie);
    }
    match trie.first_fault(alloc) {
        Ok(Some(fault)) => Err(OpenError::NotWellFormed(trie.kind, fault)),
        Ok(None) => Ok(trie),
        Err(_) => Err(OpenError::OutOfMemory),
    }
}
