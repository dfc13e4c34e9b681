// Made from crates/zerotrie_queries/src/code/laws.rt by rust/make: edit that.
//! Laws of the definitions. A law is an empty function: a call of it brings its clause into the
//! caller's proof.

/// The numbers in the code of a trie are its bytes, whatever word its name is.
pub fn code_spells_bytes() {}

/// The constant that the code of C names is the number of the kind in `zerotrie.h`.
pub fn code_names_kind() {}

/// The length in the code of C, which is the size of the array less one, is that of the bytes.
pub fn code_counts_bytes() {}
