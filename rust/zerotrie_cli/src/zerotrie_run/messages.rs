// Made from crates/zerotrie_run/src/messages.rt by rust/make: edit that.
//! Messages on standard error: each is a line of text, that is made before it is written.

pub mod ask;
pub mod build;
pub mod key;
pub mod line;
pub mod pairs;
