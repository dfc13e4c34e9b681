// Made from crates/zerotrie/src/error.rt by rust/make: edit that.
//! One error for a program.

use crate::zerotrie_all::dense::RecordError;
use crate::rstd::alloc::AllocError;
use crate::zerotrie_any::{JsonError, LoadError, NotWellFormed, TagError};
use crate::zerotrie_core::{ListError, ZeroTrieBuildError};

/// Any error of this library, for a program that builds tries, saves their bytes and loads them:
/// `?` converts each of the library's errors to it.
///
/// ```
/// # use zerotrie::{rstd::examples::*, zerotrie_all::*, zerotrie_base::*, zerotrie_core::*, zerotrie_build::*, zerotrie_any::*, zerotrie_ascii::*, zerotrie_hashed::*};
/// use zerotrie::zerotrie_all::{Error, ZeroTrieSimpleAscii};
///
/// fn main() -> Result<(), Error> {
///     let pairs = [("bar", 2), ("foo", 1)];
///     let trie = ZeroTrieSimpleAscii::try_from_iter(Global, pairs)?;
///     let kept = trie.to_tagged_bytes(Global)?;
///     let again = ZeroTrieSimpleAscii::load(kept.as_slice())?;
///     assert_eq!(again.to_btreemap(Global)?.len(), 2);
///     Ok(())
/// }
/// ```
///
/// It prints as the error that it contains, and has its advice.
#[derive(Debug)]
pub enum Error {
    /// A build returned an error.
    Build(ZeroTrieBuildError),
    /// An iterator returned an error.
    List(ListError),
    /// Bytes are not a valid trie.
    NotWellFormed(NotWellFormed),
    /// Tagged bytes do not begin with the tag of a kind that is read.
    Tag(TagError),
    /// Tagged bytes are not a valid trie of a kind that is read.
    Load(LoadError),
    /// A JSON value was not read as a trie, or a trie not written as one.
    Json(JsonError),
    /// Bytes are not the record of a dense table.
    Record(RecordError),
    /// An allocation failed, in a call that has no other error.
    Memory(AllocError),
}

impl core::fmt::Display for Error {
    #[inline]
    fn fmt(&self, f: &mut core::fmt::Formatter<'_>) -> core::fmt::Result {
        match self {
            Self::Build(field) => write!(f, "{field}"),
            Self::List(field) => write!(f, "{field}"),
            Self::NotWellFormed(field) => write!(f, "{field}"),
            Self::Tag(field) => write!(f, "{field}"),
            Self::Load(field) => write!(f, "{field}"),
            Self::Json(field) => write!(f, "{field}"),
            Self::Record(field) => write!(f, "{field}"),
            Self::Memory(_) => write!(f, "Out of memory"),
        }
    }
}

impl core::error::Error for Error {}

impl From<ZeroTrieBuildError> for Error {
    #[inline]
    fn from(field: ZeroTrieBuildError) -> Self {
        Self::Build(field)
    }
}

impl From<ListError> for Error {
    #[inline]
    fn from(field: ListError) -> Self {
        Self::List(field)
    }
}

impl From<NotWellFormed> for Error {
    #[inline]
    fn from(field: NotWellFormed) -> Self {
        Self::NotWellFormed(field)
    }
}

impl From<TagError> for Error {
    #[inline]
    fn from(field: TagError) -> Self {
        Self::Tag(field)
    }
}

impl From<LoadError> for Error {
    #[inline]
    fn from(field: LoadError) -> Self {
        Self::Load(field)
    }
}

impl From<JsonError> for Error {
    #[inline]
    fn from(field: JsonError) -> Self {
        Self::Json(field)
    }
}

impl From<RecordError> for Error {
    #[inline]
    fn from(field: RecordError) -> Self {
        Self::Record(field)
    }
}

impl From<AllocError> for Error {
    #[inline]
    fn from(field: AllocError) -> Self {
        Self::Memory(field)
    }
}

impl<T> From<crate::rstd::alloc::AllocFailed<T>> for Error {
    #[inline]
    fn from(_: crate::rstd::alloc::AllocFailed<T>) -> Self {
        Self::Memory(AllocError)
    }
}

impl Error {
    /// Returns what to do about the error.
    #[inline]
    pub fn advice(&self) -> &'static str {
        match self {
            Error::Build(error) => error.advice(),
            Error::List(error) => error.advice(),
            Error::Tag(error) => error.advice(),
            Error::Json(error) => error.advice(),
            Error::Record(error) => error.advice(),
            Error::NotWellFormed(_) | Error::Load(_) => {
                "get the bytes again, or read them as the kind that wrote them"
            }
            Error::Memory(_) => "free memory, and try again",
        }
    }
}
