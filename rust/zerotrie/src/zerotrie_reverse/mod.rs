// Made from crates/zerotrie_reverse/src/lib.rt by rust/make: edit that.
//! Reverse look-ups: the first key that has a value, by a table of four bytes for each pair.
#![cfg_attr(rustfmt, rustfmt::skip)]
#![forbid(unsafe_code)]
#![deny(unused_must_use)]
#![cfg_attr(not(feature = "__internal"), allow(dead_code, unused_imports))]
#![allow(missing_docs, unused_variables)]
#![allow(clippy::assign_op_pattern, clippy::collapsible_match, clippy::explicit_auto_deref, clippy::extra_unused_type_parameters, clippy::len_without_is_empty, clippy::manual_find, clippy::manual_map, clippy::manual_range_contains, clippy::needless_borrow, clippy::needless_lifetimes, clippy::needless_range_loop, clippy::non_canonical_clone_impl, clippy::nonminimal_bool, clippy::precedence, clippy::question_mark, clippy::type_complexity, clippy::while_let_on_iterator)]

mod descent;
mod number;
mod places;
mod table;
mod tries;

pub use table::{KeysByValue, first_key_by_places};
pub use tries::Reverse;
