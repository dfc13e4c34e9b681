// Made from crates/zerotrie_index/src/lent.rt by rust/make: edit that.
//! A builder that is lent one key after another.

use crate::rstd::prelude::*;
use crate::zerotrie_index::error::ZeroIndexBuildError;
use crate::zerotrie_index::index::ZeroIndex;
use crate::rstd::alloc::{AllocError, Global};

/// Where the key of a pair lies in the text, and its value.
#[derive(Clone, Copy)]
struct Mark {
    start: usize,
    len: usize,
    value: usize,
}

/// Appends a key to the text, and its mark to the marks.
#[inline]
fn put(
    text: &mut Vec<u8>,
    marks: &mut Vec<Mark>,
    key: &[u8],
    value: usize,
) -> Result<(), AllocError> {
    let start = text.len();
    text.extend_from_slice(key)?;
    marks.push(Mark {
        start,
        len: key.len(),
        value,
    })?;
    Ok(())
}

/// Returns the pairs of a text.
#[inline]
fn items_of<'a>(
    alloc: Global,
    text: &'a [u8],
    marks: &[Mark],
) -> Result<Vec<(&'a [u8], usize)>, AllocError> {
    let mut items = Vec::with_capacity(alloc, marks.len())?;
    for mark in marks {
        items.push((&text[mark.start..mark.start + mark.len], mark.value))?;
    }
    Ok(items)
}

/// Takes the pairs of an index one after another, in any order, and copies their keys. A listing of
/// a trie can give it each pair.
///
/// ```
/// # use zerotrie::{rstd::examples::*, zerotrie_index::*, zerotrie_base::*, zerotrie_core::*, zerotrie_sealed::*};
/// let mut builder = ZeroIndexBuilder::new(Global);
/// builder.push(b"to", 1)?;
/// builder.push(b"in", 2)?;
/// let index = builder.build(Global, 0)?;
/// assert_eq!(index.get(b"in"), Some(2));
/// # Ok::<(), Fail>(())
/// ```
pub struct ZeroIndexBuilder {
    text: Vec<u8>,
    marks: Vec<Mark>,
}

impl ZeroIndexBuilder {
    /// Returns a builder of no pairs. Does not allocate.
    #[inline]
    pub fn new(alloc: Global) -> Self {
        ZeroIndexBuilder {
            text: Vec::new(alloc),
            marks: Vec::new(alloc),
        }
    }

    /// Appends a pair.
    ///
    /// An error means that an allocation failed. The pairs are then the same as before.
    #[inline]
    pub fn push(&mut self, key: &[u8], value: usize) -> Result<(), AllocError> {
        put(&mut self.text, &mut self.marks, key, value)
    }

    /// Builds the index of the pairs, and tries seeds from this one on.
    ///
    /// The errors are those of `ZeroIndex::try_from_seed`.
    #[inline]
    pub fn build(&self, alloc: Global, seed: u64) -> Result<ZeroIndex<Vec<u8>>, ZeroIndexBuildError> {
        let items = items_of(alloc, self.text.as_slice(), self.marks.as_slice())?;
        ZeroIndex::try_from_seed(alloc, seed, items.as_slice())
    }
}
