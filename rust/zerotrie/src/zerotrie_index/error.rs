// Made from crates/zerotrie_index/src/error.rt by rust/make: edit that.
//! Errors of builds.

use crate::rstd::alloc::{AllocError, AllocFailed};

/// Why a build of an index failed.
#[derive(Clone, PartialEq, Eq, Debug)]
#[cfg_attr(not(feature = "__internal"), non_exhaustive)]
pub enum ZeroIndexBuildError {
    /// The keys do not strictly ascend by their bytes. Returned exactly if they don't.
    Unsorted,
    /// A key is there twice. A build of sorted keys returns `Unsorted` instead.
    DuplicateKey,
    /// Under each seed tried, one bucket would have more than `BUCKET_LIMIT` keys. Keys that nobody
    /// has chosen for that do not come to it: build from another seed.
    Crowded,
    /// The records of the pairs would have 2^32 bytes or more.
    CapacityExceeded,
    /// An allocation failed.
    OutOfMemory,
}

impl core::fmt::Display for ZeroIndexBuildError {
    #[inline]
    fn fmt(&self, f: &mut core::fmt::Formatter<'_>) -> core::fmt::Result {
        match self {
            Self::Unsorted => write!(f, "the keys do not ascend: sort them by their bytes, each once"),
            Self::DuplicateKey => write!(f, "a key is there twice: take each key once"),
            Self::Crowded => write!(f, "too many keys share a bucket: build from another seed"),
            Self::CapacityExceeded => write!(f, "the records of the index would have 4 GiB or more: take fewer pairs"),
            Self::OutOfMemory => write!(f, "out of memory"),
        }
    }
}

impl core::error::Error for ZeroIndexBuildError {}

/// Bytes that are not an index.
#[derive(Clone, Copy, PartialEq, Eq, Debug)]
pub struct NotAnIndex;

impl core::fmt::Display for NotAnIndex {
    #[inline]
    fn fmt(&self, f: &mut core::fmt::Formatter<'_>) -> core::fmt::Result {
        write!(f, "the bytes are not an index")
    }
}

impl core::error::Error for NotAnIndex {}

impl From<AllocError> for ZeroIndexBuildError {
    fn from(_: AllocError) -> Self {
        ZeroIndexBuildError::OutOfMemory
    }
}

impl<T> From<AllocFailed<T>> for ZeroIndexBuildError {
    fn from(_: AllocFailed<T>) -> Self {
        ZeroIndexBuildError::OutOfMemory
    }
}
