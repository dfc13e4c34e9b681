// Made from crates/zerotrie_base/src/lib.rt by rust/make: edit that.
//! What readers and builders share: the kinds, the grammar of the bytes with its laws, numbers,
//! errors, stores, keys, and the perfect hash of bytes.
#![cfg_attr(rustfmt, rustfmt::skip)]
#![forbid(unsafe_code)]
#![deny(unused_must_use)]
#![cfg_attr(not(feature = "__internal"), allow(dead_code, unused_imports))]
#![allow(missing_docs, unused_variables)]
#![allow(clippy::assign_op_pattern, clippy::collapsible_match, clippy::explicit_auto_deref, clippy::extra_unused_type_parameters, clippy::len_without_is_empty, clippy::manual_find, clippy::manual_map, clippy::manual_range_contains, clippy::needless_borrow, clippy::needless_lifetimes, clippy::needless_range_loop, clippy::non_canonical_clone_impl, clippy::nonminimal_bool, clippy::precedence, clippy::question_mark, clippy::type_complexity, clippy::while_let_on_iterator)]

mod byte_phf;
mod error;
mod fold;
mod kind;
pub mod laws;
mod options;
mod pairs;
mod store;
mod varint;
mod width;

pub use byte_phf::{PerfectByteHashMap, PerfectByteHashMapCacheOwned, are_distinct, f1, f2};
pub use error::ZeroTrieBuildError;
pub use fold::{both_cases, folded};
pub use kind::TrieKind;
pub use options::{Ext, Hash, Ignore, Simple, ZeroTrieBuilderOptions, ZeroTrieWithOptions};
pub use pairs::{TriePair, are_ascii};
pub use store::{ConvertStore, TrieKey, TrieStore};
pub use varint::{read_varint_meta2, read_varint_meta3, write_varint_meta2, write_varint_meta3};
pub use width::least_width;
pub use crate::by_kind;
