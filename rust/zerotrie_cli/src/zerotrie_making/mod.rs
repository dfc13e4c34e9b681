// Made from crates/zerotrie_making/src/lib.rt by rust/make: edit that.
//! Makes the bytes of the file of a trie or an index from the bytes of a file of pairs.
#![cfg_attr(rustfmt, rustfmt::skip)]
#![forbid(unsafe_code)]
#![deny(unused_must_use)]
#![allow(clippy::complexity, clippy::manual_unwrap_or_default, clippy::perf, clippy::style)]
#![allow(dead_code, missing_docs, unused_imports, unused_variables)]

mod combine;
mod duplicates;
mod error;
mod file;
mod input;
mod json_lines;
mod json_pairs;
mod json_places;
pub mod laws;
mod others;
mod plan;
mod tries;

pub use combine::{kind_kept, make_combined};
pub use duplicates::Duplicates;
pub use error::{CombinationError, MakeError, NoPair, NumberedKey, Shown};
pub use file::make;
pub use others::{OtherFile, is_settled, other_file};
pub use plan::{Combination, FileForm, FilePlan, Made, Plan, ReadPlan, Source};
