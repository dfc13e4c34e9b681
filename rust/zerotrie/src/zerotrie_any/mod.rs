// Made from crates/zerotrie_any/src/lib.rt by rust/make: edit that.
//! What all kinds of trie share, over plain bytes: builds from a slice, a map or an iterator, the
//! ordered map of a trie, walks of a cursor, tagged bytes and JSON values. And `ZeroTrie`, a trie
//! whose kind is a value at run time.
#![cfg_attr(rustfmt, rustfmt::skip)]
#![forbid(unsafe_code)]
#![deny(unused_must_use)]
#![cfg_attr(not(feature = "__internal"), allow(dead_code, unused_imports))]
#![allow(missing_docs, unused_variables)]
#![allow(clippy::assign_op_pattern, clippy::collapsible_match, clippy::explicit_auto_deref, clippy::extra_unused_type_parameters, clippy::len_without_is_empty, clippy::manual_find, clippy::manual_map, clippy::manual_range_contains, clippy::needless_borrow, clippy::needless_lifetimes, clippy::needless_range_loop, clippy::non_canonical_clone_impl, clippy::nonminimal_bool, clippy::precedence, clippy::question_mark, clippy::type_complexity, clippy::while_let_on_iterator)]

mod bytes;
mod cursor;
mod json;
mod keys;
mod kind;
mod list;
mod routes;
mod text_key;
mod trie;
mod walks;

pub use bytes::{LoadError, NotWellFormed, TagError, loaded, tagged, untagged};
pub use cursor::ZeroTrieCursor;
pub use json::{
    JsonError, NoPair, bytes_from_json, json_keeps_the_pairs, json_of, why_json_refused,
};
pub use keys::ZeroTrieKeys;
pub use kind::kind_for_pairs;
pub use list::map_of;
pub use routes::{bytes_from_iter, bytes_from_map, bytes_from_slice, bytes_from_unsorted_slice};
pub use text_key::TextKey;
pub use trie::{HasFlavor, ZeroTrie, ZeroTrieFlavor};
pub use walks::{CursorAnswer, CursorOp, walk};
