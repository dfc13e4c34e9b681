// Made from crates/zerotrie_core/src/values.rt by rust/make: edit that.
//! The values of a trie, one after another, and the first key that has a value.

use crate::rstd::prelude::*;
use crate::zerotrie_core::listing::ListError;
use crate::zerotrie_core::stream::ZeroTrieStream;
use crate::rstd::alloc::Global;
use crate::zerotrie_base::ZeroTrieWithOptions;

/// An iterator over the values of a trie, in the order of `ZeroTrieIterator`.
///
/// An item is a value, or `ListError::OutOfMemory` if an allocation fails: the iterator keeps the
/// current key in a buffer, which may grow. After an error, and after the end, each `next` returns
/// `None`.
#[derive(Debug)]
pub struct ZeroTrieValues<'a> {
    pairs: ZeroTrieStream<'a>,
}

impl<'a> ZeroTrieValues<'a> {
    /// Returns the values of the trie in these bytes. Does not allocate before the first `next`.
    pub fn new<K: ZeroTrieWithOptions>(alloc: Global, bytes: &'a [u8]) -> Self {
        ZeroTrieValues {
            pairs: ZeroTrieStream::new::<K>(alloc, bytes),
        }
    }
}

impl<'a> Iterator for ZeroTrieValues<'a> {
    type Item = Result<usize, ListError>;

    fn next(&mut self) -> Option<Result<usize, ListError>> {
        match self.pairs.advance() {
            Ok(false) => None,
            Ok(true) => Some(Ok(self.pairs.value())),
            Err(_) => Some(Err(ListError::OutOfMemory)),
        }
    }
}

/// Returns the first key, in the order of `ZeroTrieIterator`, that has this value, or `None` if no
/// key has it.
///
/// ```
/// # use zerotrie::{rstd::examples::*, zerotrie_core::*, zerotrie_base::*};
/// let key = first_key_of::<Simple>(Global, b"ad\x90\x06ef\x90\x11", 22)?.ok_or("no key")?;
/// assert_eq!(key.as_slice(), b"ad".as_slice());
/// # Ok::<(), Fail>(())
/// ```
///
/// Reads the pairs up to that key, and copies no other key. The only error is `OutOfMemory`.
pub fn first_key_of<K: ZeroTrieWithOptions>(
    alloc: Global,
    bytes: &[u8],
    value: usize,
) -> Result<Option<Vec<u8>>, ListError> {
    let mut pairs = ZeroTrieStream::new::<K>(alloc, bytes);
    while pairs.advance()? {
        if pairs.value() == value {
            return Ok(Some(Vec::from_slice(alloc, pairs.key())?));
        }
    }
    Ok(None)
}
