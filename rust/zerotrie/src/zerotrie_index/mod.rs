// Made from crates/zerotrie_index/src/lib.rt by rust/make: edit that.
//! An index: flat bytes that answer exact look-ups in a map from byte strings to numbers.
#![cfg_attr(rustfmt, rustfmt::skip)]
#![forbid(unsafe_code)]
#![deny(unused_must_use)]
#![cfg_attr(not(feature = "__internal"), allow(dead_code, unused_imports))]
#![allow(missing_docs, unused_variables)]
#![allow(clippy::assign_op_pattern, clippy::collapsible_match, clippy::explicit_auto_deref, clippy::extra_unused_type_parameters, clippy::len_without_is_empty, clippy::manual_find, clippy::manual_map, clippy::manual_range_contains, clippy::needless_borrow, clippy::needless_lifetimes, clippy::needless_range_loop, clippy::non_canonical_clone_impl, clippy::nonminimal_bool, clippy::precedence, clippy::question_mark, clippy::type_complexity, clippy::while_let_on_iterator)]

mod builder;
mod error;
mod hash;
mod in_blocks;
mod index;
pub mod laws;
mod lent;
mod opened;
mod placed;
mod reader;
mod trie;
mod well_formed;

pub use builder::{BUCKET_LIMIT, SEEDS_TRIED, build, build_all, build_sorted};
pub use error::{NotAnIndex, ZeroIndexBuildError};
pub use hash::hash_of;
pub use in_blocks::SealedIndex;
pub use index::ZeroIndex;
pub use lent::ZeroIndexBuilder;
pub use opened::{OpenedIndex, get};
pub use placed::{ReadAt, get_at};
pub use well_formed::is_well_formed;
