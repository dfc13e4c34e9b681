// Made from crates/zerotrie_sets/src/slice.rt by rust/make: edit that.
//! Sorted slices as streams.

use crate::rstd::alloc::AllocError;
use crate::zerotrie_core::PairStream;

/// Lists the pairs of a slice whose keys ascend by bytes.
///
/// ```
/// # use zerotrie::{rstd::examples::*, zerotrie_sets::*, zerotrie_base::*, zerotrie_core::*, zerotrie_search::*};
/// let mut pairs = SortedSlice::new(&[(b"a", 5), (b"ab", 6)]).ok_or("not sorted")?;
/// assert!(pairs.advance()?);
/// assert_eq!((pairs.key(), pairs.value()), (b"a".as_slice(), 5));
/// # Ok::<(), Fail>(())
/// ```
///
/// It does not allocate.
#[derive(Clone)]
pub struct SortedSlice<'a, 'k> {
    pairs: &'a [(&'k [u8], usize)],
    current: usize,
    next: usize,
    ended: bool,
}

/// Returns whether the keys strictly ascend by their bytes.
fn ascends(pairs: &[(&[u8], usize)]) -> bool {
    for i in 1..pairs.len() {
        let (key, _) = pairs[i - 1];
        let (next, _) = pairs[i];
        if !(key < next) {
            return false;
        }
    }
    true
}

impl<'a, 'k> SortedSlice<'a, 'k> {
    /// Lists the pairs of a slice, or returns `None` if its keys do not strictly ascend by bytes.
    pub fn new(pairs: &'a [(&'k [u8], usize)]) -> Option<Self> {
        if !ascends(pairs) {
            return None;
        }
        Some(SortedSlice {
            pairs,
            current: 0,
            next: 0,
            ended: false,
        })
    }
}

impl<'a, 'k> PairStream for SortedSlice<'a, 'k> {
    fn advance(&mut self) -> Result<bool, AllocError> {
        if self.ended || self.pairs.len() <= self.next {
            self.ended = true;
            return Ok(false);
        }
        self.current = self.next;
        self.next += 1;
        Ok(true)
    }

    fn key(&self) -> &[u8] {
        match self.pairs.get(self.current) {
            Some(pair) => pair.0,
            None => &[],
        }
    }

    fn value(&self) -> usize {
        match self.pairs.get(self.current) {
            Some(pair) => pair.1,
            None => 0,
        }
    }
}
