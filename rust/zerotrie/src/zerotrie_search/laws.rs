// Made from crates/zerotrie_search/src/laws.rt by rust/make: edit that.
//! Laws of the definitions alone, as contracts that a caller's proof can cite.
//!
//! Each function does nothing: a call brings its law into a proof.

use crate::zerotrie_core::laws::listing_is_the_map;

/// The distance of two words, which is defined by a recursion over both, is what the crate strsim
/// computes: the last cell of the table of distances.
pub fn distance_is_table() {}

/// A pattern whose first group has some alternatives matches what one of the patterns matches that have
/// an alternative in place of the group.
pub fn group_is_choice() {}

/// The pairs of a sorted listing ascend by the bytes of their keys.
pub fn sorted_listing_ascends() {}

/// In a `ZeroTrieSimpleAscii` the sorted listing is the plain one.
pub fn sorted_listing_is_the_plain() {
    listing_is_the_map();
}

/// A word of a search has at most 63 letters, and a pattern at most 63 items.
pub fn words_have_63_letters() {}
