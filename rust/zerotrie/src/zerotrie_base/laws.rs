// Made from crates/zerotrie_base/src/laws.rt by rust/make: edit that.
//! Laws of the definitions alone, as contracts that a caller's proof can cite.
//!
//! Each function does nothing: a call brings its law into a proof.

/// Each number below 2^64 has exactly one spelling in each form. Other metadata changes only its
/// own bits, and no spelling is the beginning of a longer one.
pub fn one_spelling() {}

/// No bytes mean two maps of one kind.
pub fn one_meaning() {}

/// In a kind over ASCII keys, bytes mean a map exactly if the map fits the kind and the bytes are
/// its canonical encoding.
pub fn canonical_exactly() {}

/// In a kind over ASCII keys, bytes that mean maps are equal exactly if the maps are.
pub fn equal_exactly_if_maps_are() {
    one_meaning();
    canonical_exactly();
}

/// A map that bytes of a kind mean fits the kind.
pub fn meant_fits() {}

/// Bytes that mean a map of a kind have the size of that map.
pub fn length_is_size() {}

/// Keys that are equal in the kind have the same result: equal keys, and in a kind that ignores
/// case keys that differ only in the case of ASCII letters.
pub fn same_keys_answer_alike() {}
