// Made from crates/zerotrie_run/src/lib.rt by rust/make: edit that.
//! The program over files: what each command prints, what it writes to files, and its status.
#![cfg_attr(rustfmt, rustfmt::skip)]
#![forbid(unsafe_code)]
#![deny(unused_must_use)]
#![allow(clippy::complexity, clippy::manual_unwrap_or_default, clippy::perf, clippy::style)]
#![allow(dead_code, missing_docs, unused_imports, unused_variables)]

mod ask;
mod at_places;
mod combine;
mod command;
mod diff;
mod error;
mod found;
mod front;
pub mod laws;
mod making;
mod messages;
mod open;
mod place;
mod program;
mod several;
mod status;
mod stdin_lines;

pub use command::{Build, Check, Combine, Command, Diff, Keys, Place, Question, Summary, TrieFile};
pub use program::run;
pub use several::run_each;
pub use status::Status;
