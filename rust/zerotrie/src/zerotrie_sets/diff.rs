// Made from crates/zerotrie_sets/src/diff.rt by rust/make: edit that.
//! What changed from one stream to another.

use crate::zerotrie_sets::choice::{Choice, next_chosen};
use crate::zerotrie_sets::merge::Merge;
use crate::rstd::alloc::AllocError;
use crate::zerotrie_core::PairStream;

/// How a key changed from the first stream to the second.
#[derive(Clone, Copy, Debug, PartialEq, Eq)]
#[cfg_attr(not(feature = "__internal"), non_exhaustive)]
pub enum Change {
    /// Only the second stream has the key, with this value.
    Added(usize),
    /// Only the first stream has the key, with this value.
    Removed(usize),
    /// The first stream has the first value for the key, the second one the other value.
    Changed(usize, usize),
}

/// Chooses the keys that changed.
#[derive(Clone, Copy, Debug)]
struct Changes;

impl Choice for Changes {
    type Value = Change;

    fn choose(&self, first: Option<usize>, second: Option<usize>) -> Option<Change> {
        match (first, second) {
            (Some(old), Some(new)) => {
                if old == new {
                    None
                } else {
                    Some(Change::Changed(old, new))
                }
            }
            (Some(old), None) => Some(Change::Removed(old)),
            (None, Some(new)) => Some(Change::Added(new)),
            (None, None) => None,
        }
    }
}

/// Lists what changed from the first stream to the second, in the order of bytes. A key that both
/// have with one value is passed over.
///
/// ```
/// # use zerotrie::{rstd::examples::*, zerotrie_sets::*, zerotrie_base::*, zerotrie_core::*, zerotrie_search::*};
/// let old = SortedSlice::new(&[(b"a", 1), (b"b", 2), (b"c", 3)]).ok_or("not sorted")?;
/// let new = SortedSlice::new(&[(b"a", 1), (b"b", 5), (b"d", 6)]).ok_or("not sorted")?;
/// let mut diff = Diff::new(old, new);
/// assert!(diff.advance()?);
/// assert_eq!((diff.key(), diff.change()), (b"b".as_slice(), Change::Changed(2, 5)));
/// assert!(diff.advance()?);
/// assert_eq!((diff.key(), diff.change()), (b"c".as_slice(), Change::Removed(3)));
/// assert!(diff.advance()?);
/// assert_eq!((diff.key(), diff.change()), (b"d".as_slice(), Change::Added(6)));
/// assert!(!diff.advance()?);
/// # Ok::<(), Fail>(())
/// ```
///
/// It does not allocate, apart from what the streams do.
#[derive(Clone)]
pub struct Diff<S: PairStream, T: PairStream> {
    rows: Merge<S, T>,
    change: Change,
}

impl<S: PairStream, T: PairStream> Diff<S, T> {
    /// Compares two streams. Does nothing before the first call of `advance`.
    pub fn new(first: S, second: T) -> Self {
        crate::zerotrie_sets::laws::diffs_are_of_maps();
        Diff {
            rows: Merge::new(first, second),
            change: Change::Added(0),
        }
    }

    /// Moves to the next key that changed, and returns whether there is one. An error ends the
    /// listing. The only error is a failed allocation in a stream.
    pub fn advance(&mut self) -> Result<bool, AllocError> {
        match next_chosen(&Changes, &mut self.rows)? {
            None => Ok(false),
            Some(change) => {
                self.change = change;
                Ok(true)
            }
        }
    }

    /// Returns the current key, the one that the last call of `advance` moved to. Before the first
    /// call and after the end, it is not a key that changed.
    pub fn key(&self) -> &[u8] {
        self.rows.key()
    }

    /// Returns how the current key changed.
    pub fn change(&self) -> Change {
        self.change
    }
}
