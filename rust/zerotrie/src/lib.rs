#![doc = include_str!("../README.md")]
#![no_std]
#![deny(missing_docs, unsafe_code)]

extern crate alloc;
#[cfg(feature = "__std")]
extern crate std;

#[cfg(not(any(target_pointer_width = "64", target_pointer_width = "32")))]
compile_error!("zerotrie needs a `usize` of 64 or 32 bits");

mod any;
mod calls;
pub mod cursor;
pub mod dense;
mod error;
pub mod index;
#[cfg(feature = "json")]
mod json;
mod konst;
mod listing;
mod look_ups;
mod reverse;
mod sealed;
pub mod search;
#[cfg(feature = "serde")]
mod serde;
pub mod sets;
mod trie;

/// What the sources stand on, and what rust/make makes of them.
#[path = ""]
mod made {
    pub mod rstd;
    pub mod zerotrie_all;
    pub mod zerotrie_any;
    pub mod zerotrie_ascii;
    pub mod zerotrie_base;
    pub mod zerotrie_build;
    pub mod zerotrie_core;
    pub mod zerotrie_hashed;
    pub mod zerotrie_index;
    pub mod zerotrie_reverse;
    pub mod zerotrie_sealed;
    pub mod zerotrie_search;
    pub mod zerotrie_sets;
}
#[cfg(not(feature = "__internal"))]
use made::*;
#[cfg(feature = "__internal")]
#[doc(hidden)]
pub use made::*;

pub use any::{Trie, ZeroTrie};
pub use listing::{
    Matches, Nearest, Pairs, Reversed, Sorted, SortedPairs, Values, ZeroTrieIterator, ZeroTrieKeys, ZeroTrieStringIterator,
    ZeroTrieStringKeys, ZeroTrieValues,
};
pub use look_ups::LookUps;
pub use made::rstd::alloc::AllocError;
pub use reverse::{KeysByValue, first_key_by_places};
pub use sealed::Sealed;
pub use trie::{ZeroAsciiIgnoreCaseTrie, ZeroTrieExtendedCapacity, ZeroTriePerfectHash, ZeroTrieSimpleAscii};
#[cfg(feature = "json")]
pub use zerotrie_any::JsonError;
pub use zerotrie_any::{LoadError, NotWellFormed, TagError};
pub use zerotrie_build::Refusal;
pub use zerotrie_core::{CommonPrefixes, Fault, FaultCause, TrieKind, ZeroTrieBuildError};
pub use zerotrie_sealed::SealError;
