// Made from crates/zerotrie_uses/src/keyword.rt by rust/make: edit that.
//! The number of a keyword.

use crate::rstd::prelude::*;
use crate::rstd::alloc::Global;
use crate::zerotrie_all::{ZeroTrieBuildError, ZeroTrieSimpleAscii};

/// Returns the number of a keyword, from pairs in ascending order, or `None` exactly if the word is
/// no keyword.
///
/// The errors are those of `ZeroTrieSimpleAscii::try_from_sorted_slice`.
pub fn find_keyword(
    alloc: Global,
    pairs: &[(&[u8], usize)],
    word: &[u8],
) -> Result<Option<usize>, ZeroTrieBuildError> {
    let trie = ZeroTrieSimpleAscii::try_from_sorted_slice(alloc, pairs)?;
    Ok(trie.get(word))
}
