//! An index: exact look-ups alone, faster than in a trie and over more bytes.

pub use crate::zerotrie_index::{NotAnIndex, ReadAt, ZeroIndexBuildError};

use crate::Trie;
use crate::by_kind;
use crate::listing::allocated;
use crate::rstd::alloc::{AllocError, Global};
use crate::sealed::Sealed;
use crate::zerotrie_core::ZeroTrieWithOptions;
use crate::zerotrie_index;
use crate::zerotrie_sealed::{SealError, seal_index};
use alloc::vec::Vec;
use core::borrow::Borrow;
use core::error::Error;
use core::fmt;

/// A map from byte strings to numbers for exact look-ups.
///
/// ```
/// use zerotrie::index::ZeroIndex;
///
/// let index = ZeroIndex::try_from_iter([("in", 1), ("on", 2)])?;
/// assert_eq!(index.get("on"), Some(2));
/// assert_eq!(index.get("o"), None);
/// # Ok::<(), zerotrie::index::ZeroIndexBuildError>(())
/// ```
#[derive(Debug, Clone, Copy, PartialEq, Eq)]
pub struct ZeroIndex<Store> {
    store: Store,
}

impl<Store: AsRef<[u8]>> ZeroIndex<Store> {
    /// Makes an index of a store, whose bytes are not validated.
    ///
    /// ```
    /// use zerotrie::index::ZeroIndex;
    ///
    /// let bytes = ZeroIndex::try_from_iter([("in", 1)])?.into_store();
    /// assert_eq!(ZeroIndex::from_store(&bytes).get("in"), Some(1));
    /// # Ok::<(), zerotrie::index::ZeroIndexBuildError>(())
    /// ```
    ///
    /// On malformed bytes each call returns, and its result is unspecified.
    pub const fn from_store(store: Store) -> Self {
        ZeroIndex { store }
    }

    /// Makes an index of a store whose bytes are validated.
    ///
    /// ```
    /// use zerotrie::index::{NotAnIndex, ZeroIndex};
    ///
    /// assert_eq!(ZeroIndex::try_from_store(b"no index"), Err(NotAnIndex));
    /// ```
    pub fn try_from_store(store: Store) -> Result<Self, NotAnIndex> {
        let index = ZeroIndex { store };
        if index.is_well_formed() { Ok(index) } else { Err(NotAnIndex) }
    }

    /// Returns whether the bytes are an index.
    ///
    /// ```
    /// use zerotrie::index::ZeroIndex;
    ///
    /// assert!(!ZeroIndex::from_store(b"no index").is_well_formed());
    /// ```
    pub fn is_well_formed(&self) -> bool {
        zerotrie_index::is_well_formed(self.as_bytes())
    }

    /// Opens the index for many look-ups.
    ///
    /// ```
    /// use zerotrie::index::ZeroIndex;
    ///
    /// let index = ZeroIndex::try_from_iter([("in", 1), ("on", 2)])?;
    /// let opened = index.opened();
    /// let values: Vec<_> = ["on", "to"].iter().map(|key| opened.get(key)).collect();
    /// assert_eq!(values, [Some(2), None]);
    /// # Ok::<(), zerotrie::index::ZeroIndexBuildError>(())
    /// ```
    #[inline]
    pub fn opened(&self) -> OpenedIndex<'_> {
        OpenedIndex(zerotrie_index::OpenedIndex::new(self.as_bytes()))
    }

    /// Returns the value of a key. Ask for many keys by [`ZeroIndex::opened`].
    ///
    /// ```
    /// use zerotrie::index::ZeroIndex;
    ///
    /// let index = ZeroIndex::try_from_iter([("in", 1)])?;
    /// assert_eq!(index.get("in"), Some(1));
    /// # Ok::<(), zerotrie::index::ZeroIndexBuildError>(())
    /// ```
    #[inline]
    pub fn get<K: AsRef<[u8]>>(&self, key: K) -> Option<usize> {
        zerotrie_index::get(self.as_bytes(), key.as_ref())
    }

    /// Returns whether the index has a key.
    ///
    /// ```
    /// use zerotrie::index::ZeroIndex;
    ///
    /// let index = ZeroIndex::try_from_iter([("in", 1)])?;
    /// assert!(!index.contains_key("on"));
    /// # Ok::<(), zerotrie::index::ZeroIndexBuildError>(())
    /// ```
    pub fn contains_key<K: AsRef<[u8]>>(&self, key: K) -> bool {
        self.get(key).is_some()
    }

    /// Returns the bytes.
    ///
    /// ```
    /// use zerotrie::index::ZeroIndex;
    ///
    /// let index = ZeroIndex::try_from_iter([("in", 1)])?;
    /// assert!(ZeroIndex::try_from_store(index.as_bytes()).is_ok());
    /// # Ok::<(), zerotrie::index::ZeroIndexBuildError>(())
    /// ```
    #[inline]
    pub fn as_bytes(&self) -> &[u8] {
        self.store.as_ref()
    }

    /// Returns the same index over a borrowed slice of bytes.
    ///
    /// ```
    /// use zerotrie::index::ZeroIndex;
    ///
    /// let index = ZeroIndex::try_from_iter([("in", 1)])?;
    /// let borrowed: ZeroIndex<&[u8]> = index.as_borrowed();
    /// assert_eq!(borrowed.get("in"), Some(1));
    /// # Ok::<(), zerotrie::index::ZeroIndexBuildError>(())
    /// ```
    pub fn as_borrowed(&self) -> ZeroIndex<&[u8]> {
        ZeroIndex::from_store(self.as_bytes())
    }

    /// Returns the same index over a copy of its bytes.
    ///
    /// ```
    /// use zerotrie::index::ZeroIndex;
    ///
    /// let index = ZeroIndex::try_from_iter([("in", 1)])?;
    /// let owned: ZeroIndex<Vec<u8>> = index.as_borrowed().to_owned();
    /// assert_eq!(owned.get("in"), Some(1));
    /// # Ok::<(), zerotrie::index::ZeroIndexBuildError>(())
    /// ```
    pub fn to_owned(&self) -> ZeroIndex<Vec<u8>> {
        ZeroIndex::from_store(self.as_bytes().to_vec())
    }

    /// Returns a sealed file: the length and the checksum of each block, followed by the bytes. [`ZeroIndex::open`]
    /// reads it as a whole, and [`SealedIndex`] at places.
    ///
    /// ```
    /// use zerotrie::index::ZeroIndex;
    ///
    /// let file = ZeroIndex::try_from_iter([("in", 1)])?.seal();
    /// assert_eq!(ZeroIndex::open(file).unwrap().get("in"), Some(1));
    /// # Ok::<(), zerotrie::index::ZeroIndexBuildError>(())
    /// ```
    pub fn seal(&self) -> Vec<u8> {
        allocated(seal_index(Global, self.as_bytes())).into_inner()
    }
}

impl<Store> ZeroIndex<Store> {
    /// Converts the store.
    ///
    /// ```
    /// use std::borrow::Cow;
    /// use zerotrie::index::ZeroIndex;
    ///
    /// let index = ZeroIndex::try_from_iter([("in", 1)])?;
    /// let cow: ZeroIndex<Cow<[u8]>> = index.convert_store();
    /// assert_eq!(cow.get("in"), Some(1));
    /// # Ok::<(), zerotrie::index::ZeroIndexBuildError>(())
    /// ```
    pub fn convert_store<X: From<Store>>(self) -> ZeroIndex<X> {
        ZeroIndex { store: self.store.into() }
    }

    /// Returns the store.
    ///
    /// ```
    /// use zerotrie::index::ZeroIndex;
    ///
    /// assert_eq!(ZeroIndex::from_store([1, 2]).into_store(), [1, 2]);
    /// ```
    pub fn into_store(self) -> Store {
        self.store
    }
}

impl<File: AsRef<[u8]>> ZeroIndex<Sealed<File>> {
    /// Returns the index in a sealed file, whose checksum is compared. No byte is copied.
    ///
    /// ```
    /// use zerotrie::SealError;
    /// use zerotrie::index::ZeroIndex;
    ///
    /// assert_eq!(ZeroIndex::open("no file"), Err(SealError::NoMagic));
    /// ```
    pub fn open(file: File) -> Result<Self, SealError> {
        Sealed::open_index(file).map(Self::from_store)
    }
}

impl ZeroIndex<Vec<u8>> {
    /// Builds an index of pairs in any order.
    ///
    /// ```
    /// use zerotrie::index::{ZeroIndex, ZeroIndexBuildError};
    ///
    /// let index = ZeroIndex::try_from_iter([("in", 1), ("in", 2)]);
    /// assert_eq!(index, Err(ZeroIndexBuildError::DuplicateKey));
    /// ```
    pub fn try_from_iter<K: AsRef<[u8]>, V: Borrow<usize>>(
        pairs: impl IntoIterator<Item = (K, V)>,
    ) -> Result<Self, ZeroIndexBuildError> {
        let pairs: Vec<(K, usize)> = pairs.into_iter().map(|(key, value)| (key, *value.borrow())).collect();
        Self::try_from_seed(0, &pairs)
    }

    /// Builds an index of pairs whose keys ascend by their bytes.
    ///
    /// ```
    /// use zerotrie::index::{ZeroIndex, ZeroIndexBuildError};
    ///
    /// let index = ZeroIndex::try_from_sorted_slice(&[("on", 1), ("in", 2)]);
    /// assert_eq!(index, Err(ZeroIndexBuildError::Unsorted));
    /// ```
    pub fn try_from_sorted_slice<K: AsRef<[u8]>>(pairs: &[(K, usize)]) -> Result<Self, ZeroIndexBuildError> {
        let index = zerotrie_index::build_sorted(Global, 0, pairs)?;
        Ok(Self::from_store(index.into_inner()))
    }

    /// Builds an index of pairs in any order by a seed. Take a random one if keys come from elsewhere:
    /// who does not know it can't choose keys that make the build fail.
    ///
    /// ```
    /// use zerotrie::index::ZeroIndex;
    ///
    /// let index = ZeroIndex::try_from_seed(17, &[("on", 1), ("in", 2)])?;
    /// assert_eq!(index.get("in"), Some(2));
    /// # Ok::<(), zerotrie::index::ZeroIndexBuildError>(())
    /// ```
    pub fn try_from_seed<K: AsRef<[u8]>>(seed: u64, pairs: &[(K, usize)]) -> Result<Self, ZeroIndexBuildError> {
        let index = zerotrie_index::build(Global, seed, pairs)?;
        Ok(Self::from_store(index.into_inner()))
    }

    /// Builds the index of a trie. If it ignores case, the keys of the index are in lower case.
    ///
    /// ```
    /// use zerotrie::ZeroTrieSimpleAscii;
    /// use zerotrie::index::ZeroIndex;
    ///
    /// let trie = ZeroTrieSimpleAscii::try_from_iter([("in", 1)]).unwrap();
    /// assert_eq!(ZeroIndex::from_trie(&trie)?.get("in"), Some(1));
    /// # Ok::<(), zerotrie::index::ZeroIndexBuildError>(())
    /// ```
    pub fn from_trie<T: Trie + ?Sized>(trie: &T) -> Result<Self, ZeroIndexBuildError> {
        by_kind!(trie.kind(), index_of::<_>(trie.as_bytes()))
    }
}

fn index_of<K: ZeroTrieWithOptions>(trie: &[u8]) -> Result<ZeroIndex<Vec<u8>>, ZeroIndexBuildError> {
    let index = zerotrie_index::ZeroIndex::from_trie::<K>(Global, trie)?;
    Ok(ZeroIndex::from_store(index.store.into_inner()))
}

impl<K: AsRef<[u8]>> FromIterator<(K, usize)> for ZeroIndex<Vec<u8>> {
    /// Builds an index of pairs in any order.
    ///
    /// # Panics
    ///
    /// Where `try_from_iter` returns an error.
    fn from_iter<T: IntoIterator<Item = (K, usize)>>(pairs: T) -> Self {
        Self::try_from_iter(pairs).expect("the pairs should be those of an index")
    }
}

/// An index that is open for look-ups: where its table and its pool are was read once.
///
/// ```
/// use zerotrie::index::ZeroIndex;
///
/// let index = ZeroIndex::try_from_iter([("in", 1)])?;
/// assert_eq!(index.opened().get("in"), Some(1));
/// # Ok::<(), zerotrie::index::ZeroIndexBuildError>(())
/// ```
pub struct OpenedIndex<'a>(zerotrie_index::OpenedIndex<'a>);

impl<'a> OpenedIndex<'a> {
    /// Returns the value of a key.
    ///
    /// ```
    /// use zerotrie::index::ZeroIndex;
    ///
    /// let index = ZeroIndex::try_from_iter([("in", 1)])?;
    /// assert_eq!(index.opened().get("on"), None);
    /// # Ok::<(), zerotrie::index::ZeroIndexBuildError>(())
    /// ```
    #[inline]
    pub fn get<K: AsRef<[u8]>>(&self, key: K) -> Option<usize> {
        self.0.get(key.as_ref())
    }

    /// Returns the bytes.
    ///
    /// ```
    /// use zerotrie::index::ZeroIndex;
    ///
    /// let index = ZeroIndex::try_from_iter([("in", 1)])?;
    /// assert_eq!(index.opened().as_bytes(), index.as_bytes());
    /// # Ok::<(), zerotrie::index::ZeroIndexBuildError>(())
    /// ```
    pub fn as_bytes(&self) -> &'a [u8] {
        self.0.as_bytes()
    }
}

impl fmt::Debug for OpenedIndex<'_> {
    fn fmt(&self, f: &mut fmt::Formatter<'_>) -> fmt::Result {
        f.debug_struct("OpenedIndex").finish_non_exhaustive()
    }
}

/// Why a read fails, or an allocation.
enum Fault<E> {
    Read(E),
    Memory(AllocError),
}

/// Returns what was read. A failed allocation ends the program, as everywhere in `alloc`.
fn read<T, E>(result: Result<T, Fault<E>>) -> Result<T, E> {
    result.map_err(|fault| match fault {
        Fault::Read(error) => error,
        Fault::Memory(error) => allocated(Err(error)),
    })
}

impl<E> From<AllocError> for Fault<E> {
    fn from(error: AllocError) -> Self {
        Fault::Memory(error)
    }
}

/// What is read at places, with errors of allocations beside its own.
struct Source<'s, S>(&'s mut S);

impl<S: ReadAt> ReadAt for Source<'_, S> {
    type Error = Fault<S::Error>;

    fn fill(&mut self, place: u64, room: &mut [u8]) -> Result<(), Self::Error> {
        self.0.fill(place, room).map_err(Fault::Read)
    }
}

/// Returns the value of a key in an index that is read at places, as in a file, by about three reads.
///
/// ```
/// use zerotrie::index::{ReadAt, ZeroIndex, get_at};
///
/// struct Bytes(Vec<u8>);
///
/// impl ReadAt for Bytes {
///     type Error = &'static str;
///
///     fn fill(&mut self, place: u64, room: &mut [u8]) -> Result<(), Self::Error> {
///         let from = usize::try_from(place).unwrap_or(usize::MAX);
///         let bytes = self.0.get(from..).and_then(|rest| rest.get(..room.len()));
///         room.copy_from_slice(bytes.ok_or("the index is cut")?);
///         Ok(())
///     }
/// }
///
/// let mut index = Bytes(ZeroIndex::try_from_iter([("in", 1), ("on", 2)])?.into_store());
/// assert_eq!(get_at(&mut index, "on"), Ok(Some(2)));
/// # Ok::<(), zerotrie::index::ZeroIndexBuildError>(())
/// ```
///
/// An error is that of a read. Of bytes that are no index the result is unspecified.
pub fn get_at<S: ReadAt, K: AsRef<[u8]>>(source: &mut S, key: K) -> Result<Option<usize>, S::Error> {
    read(zerotrie_index::get_at(Global, &mut Source(source), key.as_ref()))
}

/// Why an index can't be read in its file.
#[derive(Debug, Clone, Copy, PartialEq, Eq)]
pub enum FileError<E> {
    /// A read failed.
    Read(E),
    /// The file does not begin as a sealed index in blocks, or a block is damaged.
    Seal(SealError),
}

impl<E: fmt::Display> fmt::Display for FileError<E> {
    fn fmt(&self, f: &mut fmt::Formatter<'_>) -> fmt::Result {
        match self {
            FileError::Read(error) => error.fmt(f),
            FileError::Seal(error) => error.fmt(f),
        }
    }
}

impl<E: fmt::Debug + fmt::Display> Error for FileError<E> {}

impl<E> From<SealError> for Fault<FileError<E>> {
    fn from(error: SealError) -> Self {
        Fault::Read(FileError::Seal(error))
    }
}

/// A file that is read at places, with all that can be wrong with it.
struct File<S>(S);

impl<S: ReadAt> ReadAt for File<S> {
    type Error = Fault<FileError<S::Error>>;

    fn fill(&mut self, place: u64, room: &mut [u8]) -> Result<(), Self::Error> {
        self.0.fill(place, room).map_err(|error| Fault::Read(FileError::Read(error)))
    }
}

/// An index in a file that [`ZeroIndex::seal`] or the program made, of which only the blocks are read
/// that a look-up needs: some 64 KB each. Their checksums are compared.
///
/// ```
/// use zerotrie::index::{ReadAt, SealedIndex, ZeroIndex};
///
/// struct Bytes(Vec<u8>);
///
/// impl ReadAt for Bytes {
///     type Error = &'static str;
///
///     fn fill(&mut self, place: u64, room: &mut [u8]) -> Result<(), Self::Error> {
///         let from = usize::try_from(place).unwrap_or(usize::MAX);
///         let bytes = self.0.get(from..).and_then(|rest| rest.get(..room.len()));
///         room.copy_from_slice(bytes.ok_or("the file is cut")?);
///         Ok(())
///     }
/// }
///
/// let file = ZeroIndex::try_from_iter([("in", 1), ("on", 2)])?.seal();
/// let mut index = SealedIndex::open(Bytes(file)).unwrap();
/// assert_eq!(index.get("on"), Ok(Some(2)));
/// # Ok::<(), zerotrie::index::ZeroIndexBuildError>(())
/// ```
///
/// Damage elsewhere in the file changes no answer; [`ZeroIndex::open`] finds it.
pub struct SealedIndex<S>(zerotrie_index::SealedIndex<File<S>>);

impl<S: ReadAt> SealedIndex<S> {
    /// Reads what is in front of the index.
    pub fn open(file: S) -> Result<Self, FileError<S::Error>> {
        read(zerotrie_index::SealedIndex::open(Global, File(file))).map(SealedIndex)
    }

    /// Returns the value of a key.
    pub fn get<K: AsRef<[u8]>>(&mut self, key: K) -> Result<Option<usize>, FileError<S::Error>> {
        read(zerotrie_index::get_at(Global, &mut self.0, key.as_ref()))
    }

    /// Returns the number of bytes of the index.
    pub fn index_len(&self) -> usize {
        self.0.index_len()
    }
}
