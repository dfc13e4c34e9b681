// Made from crates/zerotrie_core/src/simd.rt by rust/make: edit that.
//! Reads many bytes at once, which only speed asks for.

pub(in crate::made::zerotrie_core) mod edge_search;
pub(in crate::made::zerotrie_core) mod lanes;
pub(in crate::made::zerotrie_core) mod literals;
