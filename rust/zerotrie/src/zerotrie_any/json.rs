// Made from crates/zerotrie_any/src/json.rt by rust/make: edit that.
//! Tries as JSON values: an object from keys to numbers, or a list of pairs.

mod no_pair;
mod reading;
mod writing;

pub use no_pair::{NoPair, why_json_refused};
pub use reading::bytes_from_json;
use crate::rstd::alloc::{AllocError, AllocFailed};
pub use writing::json_of;
use crate::zerotrie_core::ZeroTrieBuildError;

/// A JSON value was not read as a trie, or a trie not written as one.
///
/// ```ignore
/// let value = Value::from_str(rt.alloc(), r#"{"port":8080,"share":1.5}"#)?;
/// let error = bytes_from_json::<Simple>(rt.alloc(), &value).err();
/// assert!(rt; error == Some(JsonError::Shape));
/// ```
#[derive(Clone, PartialEq, Eq, Debug)]
#[cfg_attr(not(feature = "__internal"), non_exhaustive)]
pub enum JsonError {
    /// The value is neither an object from text to numbers nor a list of pairs.
    /// `why_json_refused` returns the part of it that is no pair.
    Shape,
    /// A build of the pairs in the value returned this error, which is never `OutOfMemory`.
    Build(ZeroTrieBuildError),
    /// An allocation failed.
    OutOfMemory,
}

impl core::fmt::Display for JsonError {
    #[inline]
    fn fmt(&self, f: &mut core::fmt::Formatter<'_>) -> core::fmt::Result {
        match self {
            Self::Shape => write!(f, "Shape"),
            Self::Build(_) => write!(f, "Build"),
            Self::OutOfMemory => write!(f, "OutOfMemory"),
        }
    }
}

impl core::error::Error for JsonError {}

impl JsonError {
    /// Returns what the error means, and what to do about it.
    pub fn advice(&self) -> &'static str {
        match self {
            JsonError::Shape => {
                "the value is no pairs: give an object from text to whole numbers, or a list of pairs of a key and a whole number"
            }
            JsonError::Build(error) => error.advice(),
            JsonError::OutOfMemory => "out of memory: free memory, or give fewer pairs",
        }
    }
}

impl From<AllocError> for JsonError {
    fn from(_: AllocError) -> Self {
        JsonError::OutOfMemory
    }
}

impl<T> From<AllocFailed<T>> for JsonError {
    fn from(_: AllocFailed<T>) -> Self {
        JsonError::OutOfMemory
    }
}

impl From<ZeroTrieBuildError> for JsonError {
    fn from(error: ZeroTrieBuildError) -> Self {
        if error == ZeroTrieBuildError::OutOfMemory {
            JsonError::OutOfMemory
        } else {
            JsonError::Build(error)
        }
    }
}

/// States that the pairs in the JSON value of a map are the map's, so what was written can be read
/// back.
///
/// Does nothing: a call brings the law into a proof.
pub fn json_keeps_the_pairs() {}
