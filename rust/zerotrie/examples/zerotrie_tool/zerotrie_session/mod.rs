// Made from crates/zerotrie_session/src/lib.rt by rust/make: edit that.
//! Runs the commands of an input: builds tries from its pairs, and looks keys up in them.
#![cfg_attr(rustfmt, rustfmt::skip)]
#![deny(unused_must_use)]
mod answer;
mod command;
mod noted;
mod reply;
mod running;
mod trie;

pub use command::BadLine;
pub use noted::Noted;
pub use running::{Ended, RunError, run, run_explained};
