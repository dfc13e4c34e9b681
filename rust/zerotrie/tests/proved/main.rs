//! The proved tests of the library, its rows, and the examples of its docs that are no doc tests. What they are made from is in
//! each file; this one is written by hand.
#![allow(dead_code, unused_imports, unused_variables)]

mod examples;
mod rows;
mod rstd;
mod zerotrie_checks;
#[path = "../../examples/zerotrie_tool/zerotrie_session/mod.rs"]
mod zerotrie_session;
mod zerotrie_session_tests;
mod zerotrie_tests;
mod zerotrie_uses;

use ::zerotrie::by_kind;
use ::zerotrie::{zerotrie_all, zerotrie_any, zerotrie_ascii, zerotrie_base, zerotrie_build, zerotrie_core, zerotrie_hashed};
use ::zerotrie::{zerotrie_index, zerotrie_reverse, zerotrie_sealed, zerotrie_search, zerotrie_sets};
