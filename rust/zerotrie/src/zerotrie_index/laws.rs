// Made from crates/zerotrie_index/src/laws.rt by rust/make: edit that.
//! Laws of the definitions alone, as contracts that a caller's proof can cite.

use crate::zerotrie_sealed::laws::index_is_behind;

/// Pairs with distinct keys return the same in each order.
pub fn built_answers_as_given() {}

/// Pairs that have an index have no cause of `DuplicateKey` and none of `CapacityExceeded`, and
/// its seed crowds none of its buckets.
pub fn index_excludes_causes() {}

/// A sealed index has the right blocks of its file. So what is read of it at places is the index.
pub fn has_its_blocks() {
    index_is_behind();
}
