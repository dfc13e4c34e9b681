// Made from crates/zerotrie/src/dense.rt by rust/make: edit that.
//! Two-dimensional tables: from a prefix and a suffix to a number, where many prefixes share
//! suffixes.

mod build;
mod get;
mod laws;
mod record;
mod rows;
mod table;

pub use laws::{answer_is_entry, fullest_window, one_record};
pub use record::RecordError;
pub use table::{ZeroAsciiDenseSparse2dTrieBorrowed, ZeroAsciiDenseSparse2dTrieOwned};
