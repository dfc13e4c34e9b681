// Made from crates/zerotrie_sets/src/combined.rt by rust/make: edit that.
//! Unions, intersections and differences of two streams.

use crate::zerotrie_sets::choice::{Choice, next_chosen};
use crate::zerotrie_sets::merge::Merge;
use crate::rstd::alloc::AllocError;
use crate::zerotrie_core::PairStream;

/// Which of two values of a key is kept.
#[derive(Clone, Copy, Debug, PartialEq, Eq)]
pub enum Keep {
    /// The value that the first stream has.
    First,
    /// The value that the last stream has.
    Last,
}

/// What is made of two streams.
///
/// ```
/// # use zerotrie::{rstd::examples::*, zerotrie_sets::*, zerotrie_base::*, zerotrie_core::*, zerotrie_search::*};
/// let first = SortedSlice::new(&[(b"a", 1), (b"c", 2)]).ok_or("not sorted")?;
/// let second = SortedSlice::new(&[(b"a", 3), (b"b", 4)]).ok_or("not sorted")?;
/// let mut pairs = Combined::new(first, second, Operation::Difference);
/// assert!(pairs.advance()?);
/// assert_eq!((pairs.key(), pairs.value()), (b"c".as_slice(), 2));
/// assert!(!pairs.advance()?);
/// # Ok::<(), Fail>(())
/// ```
#[derive(Clone, Copy, Debug, PartialEq, Eq)]
pub enum Operation {
    /// The keys of either stream.
    Union(Keep),
    /// The keys of both streams.
    Intersection(Keep),
    /// The keys of the first stream that the second one does not have.
    Difference,
    /// The keys of one stream that the other one does not have.
    SymmetricDifference,
}

impl Choice for Operation {
    type Value = usize;

    fn choose(&self, first: Option<usize>, second: Option<usize>) -> Option<usize> {
        match *self {
            Operation::Union(Keep::First) => first.or(second),
            Operation::Union(Keep::Last) => second.or(first),
            Operation::Intersection(Keep::First) => second.and(first),
            Operation::Intersection(Keep::Last) => first.and(second),
            Operation::Difference => match second {
                None => first,
                Some(_value) => None,
            },
            Operation::SymmetricDifference => first.xor(second),
        }
    }
}

/// Lists the union, the intersection or a difference of two streams, in the order of bytes, each
/// key once.
///
/// ```
/// # use zerotrie::{rstd::examples::*, zerotrie_sets::*, zerotrie_base::*, zerotrie_core::*, zerotrie_search::*};
/// let first = SortedSlice::new(&[(b"a", 1), (b"c", 2)]).ok_or("not sorted")?;
/// let second = SortedSlice::new(&[(b"a", 3), (b"b", 4)]).ok_or("not sorted")?;
/// let mut pairs = Combined::new(first, second, Operation::Union(Keep::Last));
/// assert!(pairs.advance()?);
/// assert_eq!((pairs.key(), pairs.value()), (b"a".as_slice(), 3));
/// assert!(pairs.advance()?);
/// assert_eq!((pairs.key(), pairs.value()), (b"b".as_slice(), 4));
/// assert!(pairs.advance()?);
/// assert_eq!((pairs.key(), pairs.value()), (b"c".as_slice(), 2));
/// assert!(!pairs.advance()?);
/// # Ok::<(), Fail>(())
/// ```
///
/// It is a stream itself, so a union of many is a union of unions. It does not allocate, apart from
/// what the streams do.
#[derive(Clone)]
pub struct Combined<S: PairStream, T: PairStream> {
    rows: Merge<S, T>,
    operation: Operation,
    value: usize,
}

impl<S: PairStream, T: PairStream> Combined<S, T> {
    /// Combines two streams. Does nothing before the first call of `advance`.
    pub fn new(first: S, second: T, operation: Operation) -> Self {
        crate::zerotrie_sets::laws::combined_are_maps();
        Combined {
            rows: Merge::new(first, second),
            operation,
            value: 0,
        }
    }
}

impl<S: PairStream, T: PairStream> PairStream for Combined<S, T> {
    fn advance(&mut self) -> Result<bool, AllocError> {
        match next_chosen(&self.operation, &mut self.rows)? {
            None => Ok(false),
            Some(value) => {
                self.value = value;
                Ok(true)
            }
        }
    }

    fn key(&self) -> &[u8] {
        self.rows.key()
    }

    fn value(&self) -> usize {
        self.value
    }
}
