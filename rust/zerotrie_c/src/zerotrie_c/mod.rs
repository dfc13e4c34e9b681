// Made from crates/zerotrie_c/src/lib.rt by rust/make: edit that.
//! The library for C, and for the languages that call C.
//!
//! Each export is a call of the library, with the clauses of that call. `bindings/c/zerotrie.h`
//! declares the exports, and says what a caller must keep to: nothing checks it.
#![cfg_attr(rustfmt, rustfmt::skip)]
#![deny(unused_must_use)]
#![allow(dead_code, missing_docs, unused_imports, unused_variables)]

mod answers;
pub mod bounds;
pub mod builds;
pub mod cursors;
pub mod dense;
pub mod diffs;
mod entries;
pub mod faults;
pub mod files;
pub mod flat;
mod folding;
pub mod found;
pub mod fronts;
pub mod indexes;
pub mod listings;
pub mod look_up;
mod many;
pub mod nearest;
pub mod numbers;
pub mod parts;
pub mod refusals;
pub mod reverse;
pub mod searches;
pub mod sets;
pub mod sorted;
pub mod tags;
pub mod version;
