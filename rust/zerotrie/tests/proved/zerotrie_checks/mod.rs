// Made from crates/zerotrie_checks/src/lib.rt by rust/make: edit that.
//! The tests of `zerotrie_base`, `zerotrie_core` and `zerotrie_build`, which have none of their
//! own: tests are proved together with the rest of their crate.
#![cfg_attr(rustfmt, rustfmt::skip)]
#![deny(unused_must_use)]
use crate::rstd::prelude::*;

#[cfg(test)]
mod tests;
