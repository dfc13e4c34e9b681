// Made from crates/zerotrie/src/lib.rt by rust/make: edit that.
//! Maps from byte strings to numbers, as sequences of bytes that are read in place.
//!
//! ```
//! # use zerotrie::{rstd::examples::*, zerotrie_all::*, zerotrie_base::*, zerotrie_core::*, zerotrie_build::*, zerotrie_any::*, zerotrie_ascii::*, zerotrie_hashed::*};
//! use zerotrie::zerotrie_all::ZeroTrieSimpleAscii;
//!
//! fn main() -> Result<(), Fail> {
//!     let pairs = [("foo", 1), ("bar", 2), ("bazzoo", 3)];
//!     let trie = ZeroTrieSimpleAscii::try_from_iter(Global, pairs)?;
//!     println!("{:?}", trie.get(b"bar"));        // Some(2)
//!     println!("{:?}", trie.get(b"unknown"));    // None
//!     println!("{}", trie.byte_len());           // 17
//!
//!     // The bytes are the whole trie: keep them, and later read them in place.
//!     let bytes = trie.into_store();
//!     let again = ZeroTrieSimpleAscii::from_bytes(bytes.as_slice());
//!     println!("{:?}", again.get(b"bazzoo"));    // Some(3)
//!     Ok(())
//! }
//! ```
//!
//! The types, which share builds from pairs, look-ups, validation, conversions, tagged bytes and
//! JSON:
//!
//! - `ZeroTrieSimpleAscii` for ASCII keys,
//! - `ZeroAsciiIgnoreCaseTrie` for ASCII keys whose look-ups ignore case,
//! - `ZeroTriePerfectHash` for keys of any bytes,
//! - `ZeroTrieExtendedCapacity` for keys of any bytes, also in tries of more than 4 GB,
//! - `ZeroTrie`, whose kind is a value at run time: any of these but the one that ignores case.
//!
//! The two over ASCII keys can be built in an array. A `ZeroTrie` over bytes or a store takes its
//! kind as a type parameter.
//!
//! `use zerotrie::Trie` brings the calls that all types share: of prefixes of a string, streams, counts.
//! A `TrieRef` has them for any kind that is known only when the program runs.
//!
//! A look-up does not allocate or copy. In the kinds over ASCII keys a map has one encoding,
//! however it was built, so tries of one map have equal bytes.
//!
//! A crate that depends on `zerotrie` alone can state and prove contracts over it.
//! `Rattle.zerotrie.specs` has the definitions that the library's clauses cite.
//! `Rattle.zerotrie.proofs` has lemmas: `Builds` on builds from an iterator, by its list of pairs;
//! `Lookups` and `Found` on look-ups, by the pairs alone; `Listings` on listings, likewise; `Cursors`
//! on cursors; `Fallbacks` on the longest of the keys that a string begins with; `Forms` on JSON that is written and read again; and
//! `Tables` on the records of dense tables. The crate `zerotrie_uses` has callers to copy. `laws`
//! has the laws of encodings and maps, and `json_keeps_the_pairs` that of JSON.
#![cfg_attr(rustfmt, rustfmt::skip)]
#![forbid(unsafe_code)]
#![deny(unused_must_use)]
#![cfg_attr(not(feature = "__internal"), allow(dead_code, unused_imports))]
#![allow(missing_docs, unused_variables)]
#![allow(clippy::assign_op_pattern, clippy::collapsible_match, clippy::explicit_auto_deref, clippy::extra_unused_type_parameters, clippy::len_without_is_empty, clippy::manual_find, clippy::manual_map, clippy::manual_range_contains, clippy::needless_borrow, clippy::needless_lifetimes, clippy::needless_range_loop, clippy::non_canonical_clone_impl, clippy::nonminimal_bool, clippy::precedence, clippy::question_mark, clippy::type_complexity, clippy::while_let_on_iterator)]

pub mod dense;
mod error;

pub use error::Error;
pub use crate::zerotrie_any::{
    CursorAnswer, CursorOp, HasFlavor, JsonError, LoadError, NoPair, NotWellFormed, TagError,
    TextKey, ZeroTrie, ZeroTrieFlavor, ZeroTrieKeys, json_keeps_the_pairs, why_json_refused,
};
pub use crate::zerotrie_ascii::{
    AsciiKind, AsciiTrie, ZeroAsciiIgnoreCaseTrie, ZeroTrieSimpleAscii, ZeroTrieStringIterator,
    ZeroTrieStringKeys,
};
pub use crate::zerotrie_build::{Refusal, why_iter_refused, why_slice_refused};
pub use crate::zerotrie_core::{
    CommonPrefixes, ConvertStore, Ext, Hash, Ignore, ListError, Simple, Trie, TrieKey, TrieKind,
    TrieRef, TrieStore, ZeroTrieBuildError, ZeroTrieBuilderOptions, ZeroTrieIterator,
    ZeroTrieStream, ZeroTrieValues, ZeroTrieWithOptions, laws,
};
pub use crate::zerotrie_hashed::{HashedKind, HashedTrie, ZeroTrieExtendedCapacity, ZeroTriePerfectHash};

/// Cursors, which follow a key byte by byte.
pub mod cursor {
    pub use crate::zerotrie_any::ZeroTrieCursor;
    pub use crate::zerotrie_ascii::{
        AsciiCursor, ZeroAsciiIgnoreCaseTrieCursor, ZeroTrieSimpleAsciiCursor,
    };
    pub use crate::zerotrie_core::{AsciiProbeResult, ByteProbeResult};
    pub use crate::zerotrie_hashed::{
        HashedCursor, ZeroTrieExtendedCapacityCursor, ZeroTriePerfectHashCursor,
    };
}

/// The same over plain bytes, for any kind: builds into bytes, into a borrowed buffer and by a
/// builder, their length beforehand, and the kind for pairs; look-ups, one or many at once;
/// validation, and the first fault; counts, iterators and nodes; cursors and walks; tagged bytes and
/// JSON.
///
/// ```
/// # use zerotrie::{rstd::examples::*, zerotrie_all::*, zerotrie_base::*, zerotrie_core::*, zerotrie_build::*, zerotrie_any::*, zerotrie_ascii::*, zerotrie_hashed::*};
/// let items = [("ad", 22), ("adef", 33)];
/// let items = ByteSliceWithIndices::from_str_slice(&items);
/// let mut buffer = [0; 8];
/// let len = encoded_len(Global, items, ZeroTrieBuilderOptions::of::<Simple>())?;
/// let start = fill_from_end::<0>(&mut buffer, items)?;
/// assert_eq!(buffer.len() - start, len);
/// assert_eq!(get_counted::<Simple>(&buffer[start..], b"adef"), (Some(33), 6));
/// # Ok::<(), Fail>(())
/// ```
pub mod bytes {
    pub use crate::zerotrie_any::{
        bytes_from_iter, bytes_from_json, bytes_from_map, bytes_from_slice,
        bytes_from_unsorted_slice, json_of, kind_for_pairs, map_of, tagged, untagged, walk,
    };
    pub use crate::zerotrie_base::{TriePair, are_ascii, least_width};
    pub use crate::zerotrie_build::{
        ByteSliceWithIndices, TrieBuilderStore, ZeroTrieBuilder, ZeroTrieBuilderConst,
        bytes_within, bytes_within_as, encoded_len, fill_from_end, fill_from_end_as,
    };
    pub use crate::zerotrie_core::{
        Branch, ByteSet, CursorPlace, Fault, FaultCause, LookUps, Node, Nodes, Part, SpanCursor,
        Visit, count_pairs, first_fault, first_key_of, first_node, get, get_counted,
        is_well_formed, is_well_formed_counted, longest_prefix, longest_prefix_at, plain_encode,
        probe, read_varint_meta2, read_varint_meta3, step, take_value, write_varint_meta2,
        write_varint_meta3,
    };
}

/// The perfect hash of bytes, which hashed branches use. `are_distinct` tests what a table requires
/// of its keys.
pub mod _internal {
    pub use crate::zerotrie_core::{
        PerfectByteHashMap, PerfectByteHashMapCacheOwned, are_distinct, f1, f2,
    };
}
