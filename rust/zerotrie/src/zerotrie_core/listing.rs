// Made from crates/zerotrie_core/src/listing.rt by rust/make: edit that.
//! An iterator over the pairs of a trie that allocates each key.

use crate::rstd::prelude::*;
use crate::zerotrie_core::span_cursor::SpanCursor;
use crate::zerotrie_core::stream::ZeroTrieStream;
use crate::rstd::alloc::{AllocError, AllocFailed, Allocator, Global};
use crate::zerotrie_base::ZeroTrieWithOptions;

/// Why an iteration ended early.
#[derive(Clone, PartialEq, Eq, Debug)]
pub enum ListError {
    /// An allocation failed.
    OutOfMemory,
    /// A key is not a string. This happens only if the bytes are valid in no kind over ASCII keys.
    NotText,
}

impl core::fmt::Display for ListError {
    #[inline]
    fn fmt(&self, f: &mut core::fmt::Formatter<'_>) -> core::fmt::Result {
        match self {
            Self::OutOfMemory => write!(f, "OutOfMemory"),
            Self::NotText => write!(f, "NotText"),
        }
    }
}

impl core::error::Error for ListError {}

impl ListError {
    /// Returns what the error means, and what to do about it.
    pub fn advice(&self) -> &'static str {
        match self {
            ListError::OutOfMemory => "out of memory: free memory, and iterate again",
            ListError::NotText => "a key is not text: validate the bytes, which are no trie",
        }
    }
}

impl From<AllocError> for ListError {
    fn from(_: AllocError) -> Self {
        ListError::OutOfMemory
    }
}

impl<T> From<AllocFailed<T>> for ListError {
    fn from(_: AllocFailed<T>) -> Self {
        ListError::OutOfMemory
    }
}

/// An iterator over the pairs of a trie, each key in memory of its own.
///
/// ```
/// # use zerotrie::{rstd::examples::*, zerotrie_core::*, zerotrie_base::*};
/// let bytes = [0x61, 0x85, 0x62, 0x86];   // the keys "a" with value 5 and "ab" with value 6
/// let pairs = [("a", 5), ("ab", 6)];
/// for (item, pair) in ZeroTrieIterator::new::<Simple>(Global, &bytes).zip(pairs) {
///     let (key, value) = item?;
///     assert_eq!((key.as_slice(), value), (pair.0.as_bytes(), pair.1));
/// }
/// # Ok::<(), Fail>(())
/// ```
///
/// A value comes before what follows it, and the targets of a branch come in the order of its
/// table.
///
/// An item is a key and its value, or `ListError::OutOfMemory` if an allocation failed. After an
/// error or the end, the iterator returns `None`. Over n bytes, valid or not, it returns at most n
/// pairs. A `ZeroTrieStream` returns the same pairs without allocating each key.
#[derive(Debug)]
pub struct ZeroTrieIterator<'a, A: Allocator = Global> {
    stream: ZeroTrieStream<'a, A>,
}

impl<'a, A: Allocator + Copy> ZeroTrieIterator<'a, A> {
    /// Returns an iterator over the pairs of these bytes. Does not allocate before the first
    /// `next`.
    pub fn new<K: ZeroTrieWithOptions>(alloc: A, bytes: &'a [u8]) -> Self {
        ZeroTrieIterator {
            stream: ZeroTrieStream::new::<K>(alloc, bytes),
        }
    }

    /// Returns an iterator over the pairs at a cursor, as `ZeroTrieStream::from_cursor` does.
    pub fn from_cursor<K: ZeroTrieWithOptions>(
        alloc: A,
        cursor: SpanCursor<'a>,
    ) -> Result<Self, AllocError> {
        Ok(ZeroTrieIterator {
            stream: ZeroTrieStream::from_cursor::<K>(alloc, cursor)?,
        })
    }

    /// Returns an iterator over the pairs whose keys begin with a prefix, as
    /// `ZeroTrieStream::with_prefix` does.
    pub fn with_prefix<K: ZeroTrieWithOptions>(
        alloc: A,
        bytes: &'a [u8],
        prefix: &[u8],
    ) -> Result<Self, AllocError> {
        Ok(ZeroTrieIterator {
            stream: ZeroTrieStream::with_prefix::<K>(alloc, bytes, prefix)?,
        })
    }
}

impl<'a, A: Allocator + Copy> Iterator for ZeroTrieIterator<'a, A> {
    type Item = Result<(Vec<u8, A>, usize), ListError>;

    fn next(&mut self) -> Option<Result<(Vec<u8, A>, usize), ListError>> {
        match self.stream.advance() {
            Ok(false) => None,
            Ok(true) => match self.stream.key_copy() {
                Ok(key) => Some(Ok((key, self.stream.value()))),
                Err(_) => {
                    self.stream.end();
                    Some(Err(ListError::OutOfMemory))
                }
            },
            Err(_) => Some(Err(ListError::OutOfMemory)),
        }
    }
}
