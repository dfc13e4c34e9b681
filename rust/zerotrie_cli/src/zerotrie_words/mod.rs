// Made from crates/zerotrie_words/src/lib.rt by rust/make: edit that.
//! The words of the command line: which command they ask for, or what is said in place of one.
#![cfg_attr(rustfmt, rustfmt::skip)]
#![forbid(unsafe_code)]
#![deny(unused_must_use)]
#![allow(clippy::complexity, clippy::manual_unwrap_or_default, clippy::perf, clippy::style)]
#![allow(dead_code, missing_docs, unused_imports, unused_variables)]

mod arguments;
mod build;
mod code;
mod combine;
mod completions;
mod diff;
mod help;
mod input;
mod keys;
mod listing;
mod manual;
mod misuse;
mod names;
mod notes;
mod options;
mod question;
mod reply;
mod request;
mod search;
mod shown;
mod table;
mod task;

pub use misuse::Misuse;
pub use reply::Reply;
pub use request::Request;
