// Made from crates/zerotrie_run/src/laws.rt by rust/make: edit that.
//! Laws of the definitions. A law is a function that does nothing: a call of it brings its clause
//! into the caller's proof.

use crate::zerotrie_index::laws::has_its_blocks;
use crate::zerotrie_sealed::laws::{one_index, one_trie};

/// States that the file of a trie that a build made opens as the trie of the pairs that the build read,
/// if its kind is named as it was for the build. So each question to it is answered by them.
pub fn made_opens() {
    one_trie();
}

/// States that the file of an index that a build made opens as an index of the pairs that the build
/// read, if no kind is named. So each look-up in it is answered by them.
pub fn made_index_opens() {
    one_index();
    has_its_blocks();
}

/// States that a question to a file is refused exactly if the file has no trie, nor an index that
/// answers it, by the test that was asked for, unless the usage is bad or something failed, or those
/// blocks of an index that are right answered it.
pub fn refused_exactly() {
    one_trie();
}

/// States that a build whose input makes no file is refused, unless something failed.
pub fn unmade_is_refused() {}

/// States that the file of a trie that was made of the tries of others opens as the trie of what the
/// combination takes of their maps, if its kind is named as it was when it was made. So each question
/// to it is answered by that.
pub fn combined_opens() {
    one_trie();
}

/// States that a combination of the tries of files is refused as bad input exactly if one of them has
/// no trie, unless the new file is there already, the usage is bad, or something failed.
pub fn combine_refused_exactly() {
    one_trie();
}
