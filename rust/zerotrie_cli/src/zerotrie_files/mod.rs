// Made from crates/zerotrie_files/src/lib.rt by rust/make: edit that.
//! Files that are read and replaced as a whole, and streams, with a note of what failed.
//!
//! A fault of a replacement leaves the old file.
#![cfg_attr(rustfmt, rustfmt::skip)]
#![forbid(unsafe_code)]
#![deny(unused_must_use)]
#![allow(clippy::complexity, clippy::manual_unwrap_or_default, clippy::perf, clippy::style)]
#![allow(dead_code, missing_docs, unused_imports, unused_variables)]

mod disk;
mod faults;
mod found;
mod noted;
mod output;
mod replacing;
mod store;
mod system;
mod writing;

pub use disk::{Disk, OpenFile};
pub use found::{Found, Mode};
pub use noted::Noted;
pub use output::write_output;
pub use replacing::{replace, replace_beside};
pub use store::Store;
pub use system::SystemDisk;
