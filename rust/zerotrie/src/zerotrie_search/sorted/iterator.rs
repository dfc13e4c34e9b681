// Made from crates/zerotrie_search/src/sorted/iterator.rt by rust/make: edit that.
//! An iterator over a sorted listing that allocates each key.

use crate::rstd::prelude::*;
use crate::zerotrie_search::sorted::ZeroTrieSorted;
use crate::rstd::alloc::{AllocError, Allocator, Global};
use crate::zerotrie_core::ListError;

/// An iterator over the pairs of a sorted listing, each key in memory of its own.
///
/// ```
/// # use zerotrie::{rstd::examples::*, zerotrie_search::*, zerotrie_base::*, zerotrie_core::*};
/// use zerotrie::rstd::ops::Bound;
///
/// // the keys "ab", "ac" and "b" with values 1, 2 and 3
/// let bytes = b"\xC2ab\x06\xC2bc\x01\x81\x82\x83";
/// let from = Bound::Excluded(b"ab".as_slice());
/// let sorted = ZeroTrieSorted::new::<Simple>(Global, bytes, from, Bound::Unbounded)?;
/// let mut keys = Vec::new(Global);
/// for item in ZeroTrieSortedIterator::new(sorted) {
///     keys.push(item?.0)?;
/// }
/// assert_eq!((keys[0].as_slice(), keys[1].as_slice()), (b"ac".as_slice(), b"b".as_slice()));
/// # Ok::<(), Fail>(())
/// ```
///
/// An item is a key and its value, or `ListError::OutOfMemory` if an allocation failed. After an
/// error or the end, the iterator returns `None`. Over n bytes, valid or not, it returns at most n
/// pairs. A `ZeroTrieSorted` returns the same pairs without allocating each key.
pub struct ZeroTrieSortedIterator<'a, 'p, A: Allocator = Global> {
    pairs: ZeroTrieSorted<'a, 'p, A>,
}

impl<'a, 'p, A: Allocator> ZeroTrieSorted<'a, 'p, A> {
    /// Lists nothing more.
    pub fn end(&mut self) {
        self.ended = true;
    }
}

impl<'a, 'p, A: Allocator + Copy> ZeroTrieSorted<'a, 'p, A> {
    /// Returns a copy of the key.
    fn key_copy(&self) -> Result<Vec<u8, A>, AllocError> {
        Vec::from_slice(*self.key.allocator(), self.key.as_slice())
    }
}

impl<'a, 'p, A: Allocator> ZeroTrieSortedIterator<'a, 'p, A> {
    /// Returns an iterator over the pairs that a sorted listing has still to list.
    pub fn new(pairs: ZeroTrieSorted<'a, 'p, A>) -> Self {
        ZeroTrieSortedIterator { pairs }
    }
}

impl<'a, 'p, A: Allocator + Copy> Iterator for ZeroTrieSortedIterator<'a, 'p, A> {
    type Item = Result<(Vec<u8, A>, usize), ListError>;

    fn next(&mut self) -> Option<Result<(Vec<u8, A>, usize), ListError>> {
        match self.pairs.advance() {
            Ok(false) => None,
            Ok(true) => match self.pairs.key_copy() {
                Ok(key) => Some(Ok((key, self.pairs.value()))),
                Err(_) => {
                    self.pairs.end();
                    Some(Err(ListError::OutOfMemory))
                }
            },
            Err(_) => Some(Err(ListError::OutOfMemory)),
        }
    }
}
