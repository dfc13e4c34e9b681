// Made from crates/zerotrie_search/src/range.rt by rust/make: edit that.
//! Keys between two bounds.

use crate::zerotrie_search::automaton::Automaton;
use crate::rstd::cmp::Ordering;
use crate::rstd::ops::Bound;

/// Accepts the keys between two bounds, in the order of bytes.
///
/// ```
/// # use zerotrie::{rstd::examples::*, zerotrie_search::*, zerotrie_base::*, zerotrie_core::*};
/// use zerotrie::rstd::ops::Bound;
///
/// let automaton = KeyRange { from: Bound::Included(b"b"), to: Bound::Excluded(b"d") };
/// let state = automaton.step(automaton.start(), b'c');
/// assert!(automaton.is_match(state));
/// assert!(!automaton.can_match(automaton.step(automaton.start(), b'd')));
/// # Ok::<(), Fail>(())
/// ```
///
/// A state is the range of what may follow, or `None` if nothing may.
#[derive(Clone, Copy, Debug)]
pub struct KeyRange<'p> {
    /// Where the range begins.
    pub from: Bound<&'p [u8]>,
    /// Where it ends.
    pub to: Bound<&'p [u8]>,
}

/// Returns how a bound compares to a byte and what follows it: at once, or if equal as the rest of
/// the bound compares to what follows.
fn compared<'p>(bound: &'p [u8], byte: u8) -> (Ordering, &'p [u8]) {
    match bound.split_first() {
        None => (Ordering::Less, bound),
        Some((first, rest)) => (first.cmp(&byte), rest),
    }
}

/// Returns how a bound compares to a byte, and if equal the bound of what follows it.
fn bound_after<'p>(bound: Bound<&'p [u8]>, byte: u8) -> (Ordering, Bound<&'p [u8]>) {
    match bound {
        Bound::Unbounded => (Ordering::Equal, Bound::Unbounded),
        Bound::Included(bytes) => {
            let (order, rest) = compared(bytes, byte);
            (order, Bound::Included(rest))
        }
        Bound::Excluded(bytes) => {
            let (order, rest) = compared(bytes, byte);
            (order, Bound::Excluded(rest))
        }
    }
}

/// Returns the lower bound of what may follow a byte, or `None` if nothing may.
fn from_after<'p>(from: Bound<&'p [u8]>, byte: u8) -> Option<Bound<&'p [u8]>> {
    let (order, rest) = bound_after(from, byte);
    match order {
        Ordering::Less => Some(Bound::Unbounded),
        Ordering::Equal => Some(rest),
        Ordering::Greater => None,
    }
}

/// Returns the upper bound of what may follow a byte, or `None` if nothing may.
fn to_after<'p>(to: Bound<&'p [u8]>, byte: u8) -> Option<Bound<&'p [u8]>> {
    let (order, rest) = bound_after(to, byte);
    match order {
        Ordering::Less => None,
        Ordering::Equal => Some(rest),
        Ordering::Greater => Some(Bound::Unbounded),
    }
}

/// Returns whether the empty key is within a lower bound.
fn may_end_from(from: Bound<&[u8]>) -> bool {
    match from {
        Bound::Unbounded => true,
        Bound::Included(bytes) => bytes.is_empty(),
        Bound::Excluded(_bytes) => false,
    }
}

/// Returns whether the empty key is within an upper bound. If it is not, no key is.
fn may_end_to(to: Bound<&[u8]>) -> bool {
    match to {
        Bound::Unbounded => true,
        Bound::Included(_bytes) => true,
        Bound::Excluded(bytes) => !bytes.is_empty(),
    }
}

impl<'p> Automaton for KeyRange<'p> {
    type State = Option<KeyRange<'p>>;

    fn start(&self) -> Option<KeyRange<'p>> {
        Some(*self)
    }

    fn step(&self, state: Option<KeyRange<'p>>, byte: u8) -> Option<KeyRange<'p>> {
        let range = state?;
        let from = from_after(range.from, byte)?;
        let to = to_after(range.to, byte)?;
        Some(KeyRange { from, to })
    }

    fn is_match(&self, state: Option<KeyRange<'p>>) -> bool {
        match state {
            None => false,
            Some(range) => may_end_from(range.from) && may_end_to(range.to),
        }
    }

    fn can_match(&self, state: Option<KeyRange<'p>>) -> bool {
        match state {
            None => false,
            Some(range) => may_end_to(range.to),
        }
    }
}
