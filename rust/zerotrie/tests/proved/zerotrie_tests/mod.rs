// Made from crates/zerotrie_tests/src/lib.rt by rust/make: edit that.
//! The tests of `zerotrie`, which has none of its own: tests are proved together with the rest
//! of their crate.
#![cfg_attr(rustfmt, rustfmt::skip)]
#![deny(unused_must_use)]
use crate::rstd::prelude::*;

#[cfg(test)]
mod tests;
