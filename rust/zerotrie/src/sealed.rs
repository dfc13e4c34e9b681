//! Sealed files, as stores.

use crate::zerotrie_core::TrieKind;
use crate::zerotrie_sealed::{HEADER_LEN, SealError, open, open_index};

/// A sealed file whose checksum was compared, as the store of a trie or an index: its bytes are
/// those behind the header.
///
/// ```
/// use zerotrie::{Sealed, ZeroTrie};
///
/// let file = ZeroTrie::try_from_iter([("in", 1)])?.seal();
/// let trie: ZeroTrie<Sealed<Vec<u8>>> = ZeroTrie::open(file).unwrap();
/// assert_eq!(trie.get("in"), Some(1));
/// # Ok::<(), zerotrie::ZeroTrieBuildError>(())
/// ```
///
/// The bytes of the file must not change while it is read. If they do, as those of a memory map may,
/// results are unspecified; no call panics or reads outside them.
#[derive(Debug, Clone, Copy, PartialEq, Eq)]
pub struct Sealed<File> {
    file: File,
    /// How many bytes are in front of those of the trie or the index.
    front: usize,
}

impl<File: AsRef<[u8]>> Sealed<File> {
    /// Opens the file of a trie of any kind, and returns the kind. The types of tries have `open`.
    ///
    /// ```
    /// use zerotrie::{Sealed, TrieKind, ZeroAsciiIgnoreCaseTrie};
    ///
    /// let file = ZeroAsciiIgnoreCaseTrie::try_from_iter([("In", 1)])?.seal();
    /// let (kind, store) = Sealed::open(file).unwrap();
    /// assert_eq!(kind, TrieKind::Ignore);
    /// assert_eq!(ZeroAsciiIgnoreCaseTrie::from_store(store).get("IN"), Some(1));
    /// # Ok::<(), zerotrie::ZeroTrieBuildError>(())
    /// ```
    pub fn open(file: File) -> Result<(TrieKind, Self), SealError> {
        let kind = open(file.as_ref())?.kind;
        let front = HEADER_LEN;
        Ok((kind, Sealed { file, front }))
    }

    /// Opens the file of an index.
    pub(crate) fn open_index(file: File) -> Result<Self, SealError> {
        let bytes = file.as_ref();
        let front = bytes.len() - open_index(bytes)?.len();
        Ok(Sealed { file, front })
    }
}

impl<File> Sealed<File> {
    /// Returns the file.
    ///
    /// ```
    /// use zerotrie::ZeroTrie;
    ///
    /// let file = ZeroTrie::try_from_iter([("in", 1)])?.seal();
    /// let trie = ZeroTrie::open(file.clone()).unwrap();
    /// assert_eq!(trie.into_store().into_file(), file);
    /// # Ok::<(), zerotrie::ZeroTrieBuildError>(())
    /// ```
    pub fn into_file(self) -> File {
        self.file
    }
}

impl<File: AsRef<[u8]>> AsRef<[u8]> for Sealed<File> {
    #[inline]
    fn as_ref(&self) -> &[u8] {
        self.file.as_ref().get(self.front..).unwrap_or_default()
    }
}
