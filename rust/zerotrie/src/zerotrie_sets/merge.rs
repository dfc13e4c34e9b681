// Made from crates/zerotrie_sets/src/merge.rt by rust/make: edit that.
//! Two streams merged: a row for each key of either.

use crate::zerotrie_sets::input::{Held, Input};
use crate::rstd::alloc::AllocError;
use crate::rstd::cmp::Ordering;
use crate::zerotrie_core::PairStream;

/// Lists the keys of two streams in the order of bytes, each key once, with the value that each
/// stream has for it.
///
/// ```
/// # use zerotrie::{rstd::examples::*, zerotrie_sets::*, zerotrie_base::*, zerotrie_core::*, zerotrie_search::*};
/// let first = SortedSlice::new(&[(b"a", 1), (b"c", 2)]).ok_or("not sorted")?;
/// let second = SortedSlice::new(&[(b"a", 3), (b"b", 4)]).ok_or("not sorted")?;
/// let mut rows = Merge::new(first, second);
/// assert!(rows.advance()?);
/// assert_eq!((rows.key(), rows.first(), rows.second()), (b"a".as_slice(), Some(1), Some(3)));
/// assert!(rows.advance()?);
/// assert_eq!((rows.key(), rows.first(), rows.second()), (b"b".as_slice(), None, Some(4)));
/// assert!(rows.advance()?);
/// assert_eq!((rows.key(), rows.first(), rows.second()), (b"c".as_slice(), Some(2), None));
/// assert!(!rows.advance()?);
/// # Ok::<(), Fail>(())
/// ```
///
/// It does not allocate, apart from what the streams do. If the pairs of a stream do not ascend, it
/// takes the lesser of the two first keys at each step.
#[derive(Clone)]
pub struct Merge<S: PairStream, T: PairStream> {
    first: Input<S>,
    second: Input<T>,
    ended: bool,
}

impl<S: PairStream, T: PairStream> Merge<S, T> {
    /// Merges two streams. Does nothing before the first call of `advance`.
    pub fn new(first: S, second: T) -> Self {
        crate::zerotrie_sets::laws::rows_are_of_maps();
        Merge {
            first: Input::new(first),
            second: Input::new(second),
            ended: false,
        }
    }

    /// Moves to the next key, and returns whether there is one. An error ends the merge. The only
    /// error is a failed allocation in a stream: a merge of two slices never fails.
    pub fn advance(&mut self) -> Result<bool, AllocError> {
        if self.ended {
            return Ok(false);
        }
        self.ended = true;
        let found = next_row(&mut self.first, &mut self.second)?;
        self.ended = !found;
        Ok(found)
    }

    /// Returns the current key, the one that the last call of `advance` moved to. Before the first
    /// call and after the end, it is not a key of the streams.
    pub fn key(&self) -> &[u8] {
        match self.first.held {
            Held::Listed => self.first.stream.key(),
            Held::Waiting | Held::Over => self.second.stream.key(),
        }
    }

    /// Returns the value that the first stream has for the current key, if it has the key.
    pub fn first(&self) -> Option<usize> {
        self.first.listed()
    }

    /// Returns the value that the second stream has for the current key, if it has the key.
    pub fn second(&self) -> Option<usize> {
        self.second.listed()
    }
}

/// Returns which of two inputs has the lesser key, or `None` if no pair waits.
fn lesser<S: PairStream, T: PairStream>(first: &Input<S>, second: &Input<T>) -> Option<Ordering> {
    match (first.held, second.held) {
        (Held::Waiting, Held::Waiting) => Some(first.stream.key().cmp(second.stream.key())),
        (Held::Waiting, _) => Some(Ordering::Less),
        (_, Held::Waiting) => Some(Ordering::Greater),
        _ => None,
    }
}

/// Moves to the next row, and returns whether there is one.
fn next_row<S: PairStream, T: PairStream>(
    first: &mut Input<S>,
    second: &mut Input<T>,
) -> Result<bool, AllocError> {
    first.fetch()?;
    second.fetch()?;
    match lesser(first, second) {
        None => return Ok(false),
        Some(Ordering::Less) => first.list(),
        Some(Ordering::Equal) => {
            first.list();
            second.list();
        }
        Some(Ordering::Greater) => second.list(),
    }
    Ok(true)
}
