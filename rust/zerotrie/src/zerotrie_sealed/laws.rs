// Made from crates/zerotrie_sealed/src/laws.rt by rust/make: edit that.
//! Laws of the definitions alone, as contracts that a caller's proof can cite.
//!
//! Each function does nothing: a call brings its law into a proof.

/// A file is the seal of one trie at most, in one kind.
pub fn one_trie() {}

/// A file is the seal of one list of bytes at most, by one number. So no file is that of a trie and
/// of an index.
pub fn one_content() {}

/// No sealed file is the beginning of a longer one: neither a cut file nor one with bytes behind it
/// is sealed.
pub fn none_longer() {}

/// A sealed file in which one byte is replaced by another is no sealed file.
pub fn one_byte_shows() {}

/// A file is the seal of one index at most, and of no trie as well.
pub fn one_index() {}

/// No sealed index is the beginning of a longer one.
pub fn no_index_longer() {}

/// A sealed index in which one byte is replaced by another is no sealed index.
pub fn one_byte_of_index_shows() {}

/// If a sealed index begins with the front of one in blocks, the index is what is behind it, and the
/// table in the front is that of the index. So what is read there at places is what `open_index` returns.
pub fn index_is_behind() {}
