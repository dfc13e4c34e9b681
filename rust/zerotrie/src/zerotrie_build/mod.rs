// Made from crates/zerotrie_build/src/lib.rt by rust/make: edit that.
//! The builders of a trie's bytes. `ZeroTrieBuilder` measures them first, which `encoded_len` does
//! alone, and then writes them from the first to the last into memory of their length, which a
//! `VecDeque` takes over. `ZeroTrieBuilderConst` and `fill_from_end` do not allocate: they write
//! them from the last to the first into an array or a buffer.
#![cfg_attr(rustfmt, rustfmt::skip)]
#![forbid(unsafe_code)]
#![deny(unused_must_use)]
#![cfg_attr(not(feature = "__internal"), allow(dead_code, unused_imports))]
#![allow(missing_docs, unused_variables)]
#![allow(clippy::assign_op_pattern, clippy::collapsible_match, clippy::explicit_auto_deref, clippy::extra_unused_type_parameters, clippy::len_without_is_empty, clippy::manual_find, clippy::manual_map, clippy::manual_range_contains, clippy::needless_borrow, clippy::needless_lifetimes, clippy::needless_range_loop, clippy::non_canonical_clone_impl, clippy::nonminimal_bool, clippy::precedence, clippy::question_mark, clippy::type_complexity, clippy::while_let_on_iterator)]

mod array;
mod blocks;
mod branch;
mod builder;
mod items;
mod measure;
mod number;
mod order;
mod refusal;
mod sort;
mod store;
mod windows;
mod write;

pub use array::{
    ZeroTrieBuilderConst, bytes_within, bytes_within_as, fill_from_end, fill_from_end_as,
};
pub use builder::{ZeroTrieBuilder, build_ascending, build_given, build_slice, encoded_len, len_ascending};
pub use items::ByteSliceWithIndices;
pub use refusal::{Refusal, why_iter_refused, why_slice_refused};
pub use store::TrieBuilderStore;
