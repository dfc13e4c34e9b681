// Made from crates/zerotrie_queries/src/lib.rt by rust/make: edit that.
//! Questions to the trie of a file, whose kind is known only when the program runs, and the
//! answers.
//!
//! `open` takes any bytes and returns the trie or why there is none. The other calls write the
//! values of keys, the longest keys that texts begin with, the pairs, source code, a report, or the
//! nodes.
#![cfg_attr(rustfmt, rustfmt::skip)]
#![forbid(unsafe_code)]
#![deny(unused_must_use)]
#![allow(clippy::complexity, clippy::manual_unwrap_or_default, clippy::perf, clippy::style)]
#![allow(dead_code, missing_docs, unused_imports, unused_variables)]

mod any_case;
pub mod code;
mod diff;
mod file;
mod filtered;
mod first_pairs;
mod folding;
mod found;
mod json_text;
mod kept;
mod listing;
mod lookups;
mod near;
mod print;
mod question;
mod reports;
mod sorted;
mod text;
mod views;

pub use any_case::{collect, look_up_all, of_sorted, recased};
pub use code::{Language, is_name, write_trie_code};
pub use diff::write_diff;
pub use file::{OpenError, of_tagged, open, open_unchecked};
pub use listing::{ListError, write_list};
pub use lookups::{add_answers_at, write_answers};
pub use print::{Form, Style};
pub use question::{Asked, Choice, Finder, ListQuery, Order, Pattern, Query, Sought, Spelling};
pub use reports::{Branches, Report, ReportForm, write_trie_report};
pub use sorted::sorted_pairs;
pub use text::looks_like_text;
pub use views::{View, write_trie_view};
