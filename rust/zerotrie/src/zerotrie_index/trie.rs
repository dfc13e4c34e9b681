// Made from crates/zerotrie_index/src/trie.rt by rust/make: edit that.
//! The index of a trie.

use crate::rstd::prelude::*;
use crate::zerotrie_index::error::ZeroIndexBuildError;
use crate::zerotrie_index::index::ZeroIndex;
use crate::zerotrie_index::lent::ZeroIndexBuilder;
use crate::rstd::alloc::{AllocError, Global};
use crate::zerotrie_base::{ZeroTrieWithOptions, folded};
use crate::zerotrie_core::ZeroTrieStream;

/// Appends each byte of a key as the kind compares it.
fn add_folded<K: ZeroTrieWithOptions>(text: &mut Vec<u8>, key: &[u8]) -> Result<(), AllocError> {
    for byte in key {
        text.push(folded::<K>(*byte))?;
    }
    Ok(())
}

/// Appends the pairs to come of a stream.
fn push_all<K: ZeroTrieWithOptions>(
    alloc: Global,
    builder: &mut ZeroIndexBuilder,
    stream: &mut ZeroTrieStream<'_>,
) -> Result<(), AllocError> {
    let mut key = Vec::new(alloc);
    while stream.advance()? {
        key.clear();
        add_folded::<K>(&mut key, stream.key())?;
        builder.push(key.as_slice(), stream.value())?;
    }
    Ok(())
}

impl ZeroIndex<Vec<u8>> {
    /// Builds the index of a trie of the kind `K`. If the kind ignores case, the keys of the index
    /// are in lower case; ask for these.
    ///
    /// ```
    /// # use zerotrie::{rstd::examples::*, zerotrie_index::*, zerotrie_base::*, zerotrie_core::*, zerotrie_sealed::*};
    /// let trie = b"a\xC2bc\x01\x81\x82";           // the keys "ab" with value 1 and "ac" with value 2
    /// let index = ZeroIndex::from_trie::<Simple>(Global, trie)?;
    /// assert_eq!(index.get(b"ac"), Some(2));
    /// let index = ZeroIndex::from_trie::<Ignore>(Global, b"A\x85")?;
    /// assert_eq!((index.get(b"a"), index.get(b"A")), (Some(5), None));
    /// # Ok::<(), Fail>(())
    /// ```
    ///
    /// Holds all pairs until the build is done. The bytes are not validated: of malformed ones the
    /// index is that of the pairs which `ZeroTrieStream` lists. The errors are those of
    /// `try_from_unsorted_slice`.
    pub fn from_trie<K: ZeroTrieWithOptions>(
        alloc: Global,
        bytes: &[u8],
    ) -> Result<Self, ZeroIndexBuildError> {
        let mut builder = ZeroIndexBuilder::new(alloc);
        let mut stream = ZeroTrieStream::new::<K>(alloc, bytes);
        push_all::<K>(alloc, &mut builder, &mut stream)?;
        builder.build(alloc, 0)
    }
}
