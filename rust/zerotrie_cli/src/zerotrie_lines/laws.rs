// Made from crates/zerotrie_lines/src/laws.rt by rust/make: edit that.
//! Laws of the definitions. A law is an empty function: a call of it brings its clause into the
//! caller's proof.

/// A key that was written spells that key, and no other.
pub fn escaped_reads_back() {}

/// The lines of pairs, as they are written, are these pairs.
pub fn lines_read_back() {}

/// An input is one list of pairs at most.
pub fn one_reading() {}

/// An input with a line or record that is no pair is no pairs.
pub fn bad_is_unread() {}
