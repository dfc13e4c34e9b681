// Made from crates/zerotrie_c/src/numbers.rt by rust/make: edit that.
//! The numbers of kinds and of statuses, and what is found by a number.

use crate::zerotrie_core::{TrieKind, TrieRef, ZeroTrieBuildError};

/// Returns the kind with this number, or `None` if no kind has it.
pub fn kind_of(number: u32) -> Option<TrieKind> {
    TrieKind::of_tag(u8::try_from(number).ok()?)
}

/// Returns the trie of these bytes, of the kind with this number, or `None` if no kind has it.
pub fn trie_of(kind: u32, bytes: &[u8]) -> Option<TrieRef<'_>> {
    let kind = kind_of(kind)?;
    Some(TrieRef { kind, bytes })
}

/// Returns whether a kind has this number.
pub fn is_kind(kind: u32) -> bool {
    kind_of(kind).is_some()
}

/// The call succeeded.
pub const DONE: u32 = 0;

/// A key comes twice, or more than one trie has it.
pub const DUPLICATE_KEY: u32 = 6;

/// The room is too small; its needed length is set.
pub const BUFFER_TOO_SMALL: u32 = 8;

/// An allocation failed.
pub const OUT_OF_MEMORY: u32 = 11;

/// No kind has this number.
pub const UNKNOWN_KIND: u32 = 12;

/// Tagged bytes are empty.
pub const NO_TAG: u32 = 13;

/// Tagged bytes do not begin with the number of a kind.
pub const INVALID_TAG: u32 = 14;

/// A table has no value for two strings, or no key is what was asked for.
pub const NO_ENTRY: u32 = 15;

/// The record of a table is truncated.
pub const RECORD_TRUNCATED: u32 = 16;

/// Bytes follow the record of a table.
pub const TRAILING_BYTES: u32 = 17;

/// The parts of a sealed file do not agree.
pub const DAMAGED: u32 = 18;

/// A sealed file has another version of the format.
pub const UNKNOWN_VERSION: u32 = 19;

/// No search, or no bound, has this number.
pub const UNKNOWN_SEARCH: u32 = 20;

/// A pattern is malformed, or a word is not UTF-8.
pub const MALFORMED_SEARCH: u32 = 21;

/// A pattern or a word is over its limit.
pub const SEARCH_TOO_LONG: u32 = 22;

/// Too many keys of an index share a bucket.
pub const CROWDED: u32 = 23;

/// No selection, or no rule, has this number.
pub const UNKNOWN_SELECTION: u32 = 24;

/// The sum of the values of a key is 2^64 or more.
pub const SUM_TOO_LARGE: u32 = 25;

/// The bytes of a trie are not valid.
pub const MALFORMED_TRIE: u32 = 26;

/// More edits are asked for than a search takes.
pub const TOO_MANY_EDITS: u32 = 27;

/// Returns the status of a build error.
pub fn status_of(error: ZeroTrieBuildError) -> u32 {
    match error {
        ZeroTrieBuildError::NonAsciiError => 1,
        ZeroTrieBuildError::CapacityExceeded => 2,
        ZeroTrieBuildError::CouldNotSolvePerfectHash => 3,
        ZeroTrieBuildError::MixedCase => 4,
        ZeroTrieBuildError::IllegalDelimiter => 5,
        ZeroTrieBuildError::DuplicateKey => DUPLICATE_KEY,
        ZeroTrieBuildError::Unsorted => 7,
        ZeroTrieBuildError::BufferTooSmall => BUFFER_TOO_SMALL,
        ZeroTrieBuildError::BufferTooLarge(_) => 9,
        ZeroTrieBuildError::StackExceeded => 10,
        ZeroTrieBuildError::OutOfMemory => OUT_OF_MEMORY,
    }
}
