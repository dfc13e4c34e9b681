// Made from crates/zerotrie_base/src/error.rt by rust/make: edit that.
//! Errors of builds.

use crate::rstd::alloc::{AllocError, AllocFailed};

/// Why a build of a trie failed.
///
/// ```
/// # use zerotrie::{rstd::examples::*, zerotrie_base::*};
/// let error = ZeroTrieBuildError::BufferTooLarge(17);
/// let text = format!("{error}");
/// assert_eq!(text.as_str(), "Buffer too large. Size needed: 17");
/// assert_eq!(error.advice(), "take an array of the size needed");
/// # Ok::<(), Fail>(())
/// ```
///
/// Each of the first ten variants is returned only if its condition is true of the pairs given.
/// `OutOfMemory` is returned only if an allocation failed, whatever else is true of the pairs. For
/// `NonAsciiError`, `MixedCase`, `DuplicateKey` and `Unsorted`, `why_slice_refused` and
/// `why_iter_refused` return the keys that cause the error.
#[derive(Clone, PartialEq, Eq, Debug)]
#[cfg_attr(not(feature = "__internal"), non_exhaustive)]
pub enum ZeroTrieBuildError {
    /// A key has a byte of 128 or more, and this kind of trie takes only ASCII keys.
    NonAsciiError,
    /// The targets of a branch would have 2^32 bytes or more, and the kind has offsets of at most
    /// four bytes; or the whole encoding would have 2^64 bytes or more.
    CapacityExceeded,
    /// The search found no parameters of a perfect hash for the edges of a branch.
    CouldNotSolvePerfectHash,
    /// At the first byte where two keys differ, they differ only in case, and the kind ignores
    /// case.
    ///
    /// Examples are `Accept` and `accept`, `Accept-CH` and `Accept-Charset`, and `DAV` and `Date`.
    /// To avoid the error, lower-case the keys first; look-ups return the same.
    MixedCase,
    /// A string of a dense table contains the delimiter.
    IllegalDelimiter,
    /// An iterator returned a key twice.
    DuplicateKey,
    /// The keys of a slice or map do not strictly ascend by their bytes, or those of an array of the
    /// kind that ignores case by their bytes in lower case.
    Unsorted,
    /// The encoding is longer than the array.
    BufferTooSmall,
    /// The encoding is shorter than the array. The field is its length in bytes.
    BufferTooLarge(usize),
    /// The stack of the array builder is too small for the branches that are open at once.
    StackExceeded,
    /// An allocation failed.
    OutOfMemory,
}

impl core::fmt::Display for ZeroTrieBuildError {
    #[inline]
    fn fmt(&self, f: &mut core::fmt::Formatter<'_>) -> core::fmt::Result {
        match self {
            Self::NonAsciiError => write!(f, "Non-ASCII cannot be added to an ASCII-only trie"),
            Self::CapacityExceeded => write!(f, "Reached maximum capacity of trie"),
            Self::CouldNotSolvePerfectHash => write!(f, "Failed to solve the perfect hash function. This is rare! Please report your case to the ICU4X team."),
            Self::MixedCase => write!(f, "Mixed-case data added to case-insensitive trie"),
            Self::IllegalDelimiter => write!(f, "Delimiter is contained in one or more strings"),
            Self::DuplicateKey => write!(f, "The same key was given twice"),
            Self::Unsorted => write!(f, "Keys are not in strictly ascending order"),
            Self::BufferTooSmall => write!(f, "Buffer too small"),
            Self::BufferTooLarge(field) => write!(f, "Buffer too large. Size needed: {field}"),
            Self::StackExceeded => write!(f, "Need more stack"),
            Self::OutOfMemory => write!(f, "Out of memory"),
        }
    }
}

impl core::error::Error for ZeroTrieBuildError {}

impl ZeroTrieBuildError {
    /// Returns what to do about the error, in words that can follow its text and a colon.
    ///
    /// ```
    /// # use zerotrie::{rstd::examples::*, zerotrie_base::*};
    /// assert_eq!(ZeroTrieBuildError::DuplicateKey.advice(), "give each key once");
    /// # Ok::<(), Fail>(())
    /// ```
    pub fn advice(&self) -> &'static str {
        match self {
            ZeroTrieBuildError::NonAsciiError => "take a kind of trie for keys of any bytes",
            ZeroTrieBuildError::CapacityExceeded =>
                "take the kind of extended capacity, or fewer pairs or suffixes",
            ZeroTrieBuildError::CouldNotSolvePerfectHash =>
                "for keys of random bytes, build an index, or write them in hex in a kind without hashed tables; else change a key",
            ZeroTrieBuildError::MixedCase => "lower-case the keys first",
            ZeroTrieBuildError::IllegalDelimiter => "take a delimiter that is in none of them",
            ZeroTrieBuildError::DuplicateKey => "give each key once",
            ZeroTrieBuildError::Unsorted => "sort the keys by their bytes, each once",
            ZeroTrieBuildError::BufferTooSmall => "take a larger array",
            ZeroTrieBuildError::BufferTooLarge(_) => "take an array of the size needed",
            ZeroTrieBuildError::StackExceeded => "take a larger stack",
            ZeroTrieBuildError::OutOfMemory => "free memory, or build from fewer pairs",
        }
    }
}

impl From<AllocError> for ZeroTrieBuildError {
    fn from(_: AllocError) -> Self {
        ZeroTrieBuildError::OutOfMemory
    }
}

impl<T> From<AllocFailed<T>> for ZeroTrieBuildError {
    fn from(_: AllocFailed<T>) -> Self {
        ZeroTrieBuildError::OutOfMemory
    }
}
