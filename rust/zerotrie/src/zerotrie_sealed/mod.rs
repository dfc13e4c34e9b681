// Made from crates/zerotrie_sealed/src/lib.rt by rust/make: edit that.
//! Sealed files: a trie or an index behind a header with its number, its length and a checksum, so
//! that damage is found.
#![cfg_attr(rustfmt, rustfmt::skip)]
#![forbid(unsafe_code)]
#![deny(unused_must_use)]
#![cfg_attr(not(feature = "__internal"), allow(dead_code, unused_imports))]
#![allow(missing_docs, unused_variables)]
#![allow(clippy::assign_op_pattern, clippy::collapsible_match, clippy::explicit_auto_deref, clippy::extra_unused_type_parameters, clippy::len_without_is_empty, clippy::manual_find, clippy::manual_map, clippy::manual_range_contains, clippy::needless_borrow, clippy::needless_lifetimes, clippy::needless_range_loop, clippy::non_canonical_clone_impl, clippy::nonminimal_bool, clippy::precedence, clippy::question_mark, clippy::type_complexity, clippy::while_let_on_iterator)]

mod blocks;
mod checksum;
mod indexes;
pub mod laws;
mod reading;
mod tables;
mod writing;

pub use blocks::BLOCK_LEN;
pub use checksum::crc32c;
pub use indexes::{IndexTable, is_index_number, open_index, open_table, table_len};
pub use reading::{SealError, Sealed, begins_magic, begins_sealed, open};
pub use writing::{BLOCKS_NUMBER, HEADER_LEN, INDEX_NUMBER, header_of, seal, seal_index};
