// Made from crates/zerotrie_uses/src/keywords.rt by rust/make: edit that.
//! Words that are looked up: keywords, words of any bytes, and header names in any case.

use crate::rstd::prelude::*;
use crate::rstd::alloc::Global;
use crate::zerotrie_all::{
    ZeroAsciiIgnoreCaseTrie, ZeroTrie, ZeroTrieBuildError, ZeroTriePerfectHash, ZeroTrieSimpleAscii,
};

/// Looks up one of three literals. The contract states the result outright.
pub fn second_of_three(alloc: Global) -> Result<Option<usize>, ZeroTrieBuildError> {
    let trie = ZeroTrieSimpleAscii::try_from_iter(alloc, [("foo", 1), ("bar", 2), ("bazzoo", 3)])?;
    Ok(trie.get(b"bar"))
}

/// Returns the record of a keyword, or `None` exactly if the word is no keyword. The keywords are in
/// ascending order, each with the index of its record, and their trie fills an array of 15 bytes. It
/// does not allocate.
///
/// The records are indexed without a test: the result of the look-up is the index of some keyword.
/// The errors are those of `ZeroTrieSimpleAscii::from_sorted_u8_tuples`.
pub fn record_of(
    keywords: &[(&[u8], usize)],
    records: &[u8],
    word: &[u8],
) -> Result<Option<u8>, ZeroTrieBuildError> {
    let trie: ZeroTrieSimpleAscii<[u8; 15]> = ZeroTrieSimpleAscii::from_sorted_u8_tuples(keywords)?;
    match trie.get(word) {
        Some(index) => Ok(Some(records[index])),
        None => Ok(None),
    }
}

/// Returns the number of a word, from pairs in any order with keys of any bytes, or `None` exactly if
/// the word is no key.
///
/// The errors are those of `ZeroTrie::try_from_iter`.
pub fn find_word(
    alloc: Global,
    pairs: &[(&[u8], usize)],
    word: &[u8],
) -> Result<Option<usize>, ZeroTrieBuildError> {
    let trie = ZeroTrie::try_from_iter(alloc, pairs.iter().copied())?;
    Ok(trie.get(word))
}

/// Like `find_word`, from pairs that own their keys, as those that a program reads.
///
/// The errors are those of `ZeroTriePerfectHash::try_from_iter`.
pub fn find_owned(
    alloc: Global,
    pairs: Vec<(String, usize)>,
    word: &[u8],
) -> Result<Option<usize>, ZeroTrieBuildError> {
    let trie = ZeroTriePerfectHash::try_from_iter(alloc, pairs)?;
    Ok(trie.get(word))
}

/// Returns the number of a header name in any case, from pairs in any order, or `None` exactly if no
/// header has the name.
///
/// The errors are those of `ZeroAsciiIgnoreCaseTrie::try_from_iter`.
pub fn find_header(
    alloc: Global,
    pairs: &[(&[u8], usize)],
    name: &[u8],
) -> Result<Option<usize>, ZeroTrieBuildError> {
    let trie = ZeroAsciiIgnoreCaseTrie::try_from_iter(alloc, pairs.iter().copied())?;
    Ok(trie.get(name))
}
