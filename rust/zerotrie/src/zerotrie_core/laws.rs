// Made from crates/zerotrie_core/src/laws.rt by rust/make: edit that.
//! Laws of the definitions alone, as contracts that a caller's proof can cite.
//!
//! Each function does nothing: a call brings its law into a proof.

pub use crate::zerotrie_base::laws::{
    canonical_exactly, equal_exactly_if_maps_are, length_is_size, meant_fits, one_meaning,
    one_spelling, same_keys_answer_alike,
};

/// On bytes that mean a map, a look-up of a key of n bytes reads at most 2n + 1 nodes.
pub fn few_nodes() {}

/// After steps along a prefix, with no value taken, a look-up of a key in what is left returns what
/// the whole trie returns for the prefix followed by the key.
pub fn steps_look_ahead() {}

/// After `take_value`, a second `take_value` returns `None`.
pub fn no_second_value() {}

/// Stepping along a key returns the stored bytes of that key. If the kind ignores case, the steps
/// may be in any case.
pub fn steps_answer_stored_bytes() {}

/// The pairs that bytes of a kind list are the map that they mean, each pair once. In a kind over
/// ASCII keys the pairs ascend by the bytes of their keys, lower-cased if the kind ignores case.
pub fn listing_is_the_map() {}

/// Bytes that mean a map have no fault, in the sense of `first_fault`.
pub fn no_fault_in_a_trie() {}
