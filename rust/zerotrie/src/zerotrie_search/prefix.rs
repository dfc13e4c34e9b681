// Made from crates/zerotrie_search/src/prefix.rt by rust/make: edit that.
//! Keys that begin with given bytes.

use crate::zerotrie_search::automaton::Automaton;
use crate::zerotrie_base::both_cases;
use crate::zerotrie_core::{ByteSet, TrieKind, ZeroTrieWithOptions, by_kind, folded};

/// Accepts the keys that begin with these bytes, byte by byte.
///
/// ```
/// # use zerotrie::{rstd::examples::*, zerotrie_search::*, zerotrie_base::*, zerotrie_core::*};
/// let automaton = StartsWith(b"in");
/// let state = automaton.step(automaton.start(), b'i');
/// assert!(automaton.is_match(automaton.step(state, b'n')));
/// assert!(!automaton.can_match(automaton.step(state, b't')));
/// # Ok::<(), Fail>(())
/// ```
///
/// A state is what is left of the bytes, or `None` once another byte came.
#[derive(Clone, Copy, Debug)]
pub struct StartsWith<'p>(pub &'p [u8]);

impl<'p> Automaton for StartsWith<'p> {
    type State = Option<&'p [u8]>;

    fn start(&self) -> Option<&'p [u8]> {
        Some(self.0)
    }

    fn step(&self, state: Option<&'p [u8]>, byte: u8) -> Option<&'p [u8]> {
        let left = state?;
        match left.split_first() {
            None => Some(left),
            Some((first, more)) => (*first == byte).then_some(more),
        }
    }

    fn is_match(&self, state: Option<&'p [u8]>) -> bool {
        match state {
            None => false,
            Some(left) => left.is_empty(),
        }
    }

    fn can_match(&self, state: Option<&'p [u8]>) -> bool {
        state.is_some()
    }

    fn wanted(&self, state: Option<&'p [u8]>) -> Option<ByteSet> {
        let (first, _more) = state?.split_first()?;
        Some(ByteSet::from_bytes(&[*first]))
    }
}

/// Returns whether two bytes are the same in the kind `K`.
fn are_same_as<K: ZeroTrieWithOptions>(byte: u8, other: u8) -> bool {
    folded::<K>(byte) == folded::<K>(other)
}

/// Returns whether two bytes are the same in a kind.
fn are_same(kind: TrieKind, byte: u8, other: u8) -> bool {
    by_kind!(kind, are_same_as::<_>(byte, other))
}

/// Returns the bytes that are the same as this one in the kind `K`.
fn same_as<K: ZeroTrieWithOptions>(byte: u8) -> ByteSet {
    let (lower, upper) = both_cases::<K>(byte);
    ByteSet::from_bytes(&[lower, upper])
}

/// Accepts the keys that begin with these bytes, as the kind compares bytes.
///
/// ```
/// # use zerotrie::{rstd::examples::*, zerotrie_search::*, zerotrie_base::*, zerotrie_core::*};
/// let automaton = KindPrefix {
///     kind: TrieKind::Ignore,
///     prefix: b"in",
/// };
/// let state = automaton.step(automaton.start(), b'I');
/// assert!(automaton.is_match(automaton.step(state, b'n')));
/// # Ok::<(), Fail>(())
/// ```
///
/// A state is what is left of the bytes, or `None` once another byte came.
#[derive(Clone, Copy, Debug)]
pub struct KindPrefix<'p> {
    /// The kind that compares bytes.
    pub kind: TrieKind,
    /// What keys begin with.
    pub prefix: &'p [u8],
}

impl<'p> Automaton for KindPrefix<'p> {
    type State = Option<&'p [u8]>;

    fn start(&self) -> Option<&'p [u8]> {
        Some(self.prefix)
    }

    fn step(&self, state: Option<&'p [u8]>, byte: u8) -> Option<&'p [u8]> {
        let left = state?;
        match left.split_first() {
            None => Some(left),
            Some((first, more)) => are_same(self.kind, byte, *first).then_some(more),
        }
    }

    fn is_match(&self, state: Option<&'p [u8]>) -> bool {
        match state {
            None => false,
            Some(left) => left.is_empty(),
        }
    }

    fn can_match(&self, state: Option<&'p [u8]>) -> bool {
        state.is_some()
    }

    fn wanted(&self, state: Option<&'p [u8]>) -> Option<ByteSet> {
        let (first, _more) = state?.split_first()?;
        Some(by_kind!(self.kind, same_as::<_>(*first)))
    }
}
