// Made from crates/zerotrie_sets/src/lib.rt by rust/make: edit that.
//! Streams of pairs in the order of bytes, merged: unions, intersections, differences and changes.
#![cfg_attr(rustfmt, rustfmt::skip)]
#![forbid(unsafe_code)]
#![deny(unused_must_use)]
#![cfg_attr(not(feature = "__internal"), allow(dead_code, unused_imports))]
#![allow(missing_docs, unused_variables)]
#![allow(clippy::assign_op_pattern, clippy::collapsible_match, clippy::explicit_auto_deref, clippy::extra_unused_type_parameters, clippy::len_without_is_empty, clippy::manual_find, clippy::manual_map, clippy::manual_range_contains, clippy::needless_borrow, clippy::needless_lifetimes, clippy::needless_range_loop, clippy::non_canonical_clone_impl, clippy::nonminimal_bool, clippy::precedence, clippy::question_mark, clippy::type_complexity, clippy::while_let_on_iterator)]

mod choice;
mod combined;
mod diff;
mod input;
pub mod laws;
mod merge;
mod merge_all;
mod selection;
mod slice;
mod sorted;

pub use combined::{Combined, Keep, Operation};
pub use diff::{Change, Diff};
pub use merge::Merge;
pub use merge_all::MergeAll;
pub use selection::{Rule, RuleError, Selection};
pub use slice::SortedSlice;
pub use sorted::SortedTrie;
pub use crate::zerotrie_core::PairStream;
