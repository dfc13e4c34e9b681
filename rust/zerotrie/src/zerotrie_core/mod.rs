// Made from crates/zerotrie_core/src/lib.rt by rust/make: edit that.
//! What reads tries in place: look-ups, listings, cursors and validation, over plain bytes, and for
//! every type of trie by the trait `Trie`. Also the plain encoder.
#![cfg_attr(rustfmt, rustfmt::skip)]
#![forbid(unsafe_code)]
#![deny(unused_must_use)]
#![cfg_attr(not(feature = "__internal"), allow(dead_code, unused_imports))]
#![allow(missing_docs, unused_variables)]
#![allow(clippy::assign_op_pattern, clippy::collapsible_match, clippy::explicit_auto_deref, clippy::extra_unused_type_parameters, clippy::len_without_is_empty, clippy::manual_find, clippy::manual_map, clippy::manual_range_contains, clippy::needless_borrow, clippy::needless_lifetimes, clippy::needless_range_loop, clippy::non_canonical_clone_impl, clippy::nonminimal_bool, clippy::precedence, clippy::question_mark, clippy::type_complexity, clippy::while_let_on_iterator)]

mod borders;
mod branch;
mod byte_set;
mod cursor;
mod cursor_place;
mod edges;
mod faults;
mod here;
pub mod laws;
mod listing;
mod look_ups;
mod node;
mod offsets;
mod pair_stream;
mod plain;
mod prefixes;
mod reader;
mod simd;
mod span_cursor;
mod stream;
mod trie;
mod values;
mod walk;
mod well_formed;

pub use borders::longest_prefix_at;
pub use branch::Branch;
pub use byte_set::ByteSet;
pub use cursor::{AsciiProbeResult, probe, step, take_value};
pub use cursor_place::CursorPlace;
pub use faults::{Fault, FaultCause, first_fault};
pub use listing::{ListError, ZeroTrieIterator};
pub use look_ups::LookUps;
pub use node::{Node, first_node};
pub use pair_stream::PairStream;
pub use plain::plain_encode;
pub use prefixes::{CommonPrefixes, longest_prefix};
pub use reader::{get, get_counted};
pub use span_cursor::{ByteProbeResult, SpanCursor};
pub use stream::ZeroTrieStream;
pub use trie::{Trie, TrieRef};
pub use values::{ZeroTrieValues, first_key_of};
pub use walk::{Nodes, Part, Visit, count_pairs};
pub use well_formed::{is_well_formed, is_well_formed_counted};
pub use crate::zerotrie_base::{
    ConvertStore, Ext, Hash, Ignore, PerfectByteHashMap, PerfectByteHashMapCacheOwned, Simple,
    TrieKey, TrieKind, TrieStore, ZeroTrieBuildError, ZeroTrieBuilderOptions, ZeroTrieWithOptions,
    are_distinct, by_kind, f1, f2, folded, read_varint_meta2, read_varint_meta3,
    write_varint_meta2, write_varint_meta3,
};
