// Made from crates/zerotrie_making/src/laws.rt by rust/make: edit that.
//! Laws of the definitions. A law is an empty function: a call of it brings its clause into the
//! caller's proof.

use crate::zerotrie_index::laws::index_excludes_causes;
use crate::zerotrie_lines::laws::{bad_is_unread, lines_read_back, one_reading};

/// States that the lines in which a trie is listed, made into a trie file of the same kind, mean the
/// same map.
pub fn listed_is_made_again() {
    lines_read_back();
    one_reading();
}

/// States that an input that is no pairs makes no file.
pub fn unread_makes_no_file() {
    bad_is_unread();
}

/// States that an input of which no file is made has none: what an error says of the input, and what a
/// file says of it, exclude each other.
///
/// `CouldNotSolvePerfectHash` is left out: it says that the trie needs a table that has to be
/// searched, and a search may find one. So is `Crowded`, as under another seed the pairs have an
/// index, and `OutOfMemory`, which says nothing of the input.
pub fn refused_makes_no_file() {
    one_reading();
    bad_is_unread();
    index_excludes_causes();
}

/// States that a number in JSON is a value exactly if it is one on a line.
pub fn whole_is_number() {}
