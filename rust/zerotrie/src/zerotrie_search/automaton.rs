// Made from crates/zerotrie_search/src/automaton.rt by rust/make: edit that.
//! What reads a key byte by byte, and accepts it or not.

use crate::zerotrie_core::ByteSet;

/// A set of keys that is decided byte by byte.
///
/// ```
/// # use zerotrie::{rstd::examples::*, zerotrie_search::*, zerotrie_base::*, zerotrie_core::*};
/// let automaton = StartsWith(b"in");
/// let mut state = automaton.start();
/// assert!(!automaton.is_match(state));
/// for byte in b"into" {
///     state = automaton.step(state, *byte);
///     assert!(automaton.can_match(state));
/// }
/// assert!(automaton.is_match(state));
/// # Ok::<(), Fail>(())
/// ```
///
/// A state is the set of what may follow, and `accepts_from` says which do. So the first
/// state accepts the keys themselves, and a step takes its byte off the front of what follows.
pub trait Automaton {
    type State: Copy;

    // Says whether a key is accepted.

    // Says whether a key is accepted that goes on with these bytes after the state.

    // Holds of the states that the automaton may be in after these bytes.

    /// Returns the state before the first byte.
    fn start(&self) -> Self::State;

    /// Returns the state after one more byte.
    fn step(&self, state: Self::State, byte: u8) -> Self::State;

    /// Returns whether the bytes before the state are an accepted key.
    fn is_match(&self, state: Self::State) -> bool;

    /// Returns `false` only if no accepted key begins with the bytes before the state.
    fn can_match(&self, state: Self::State) -> bool;

    /// Returns a set of bytes, such that no accepted key has another one after the state, or `None`
    /// if any byte may follow. Of a branch, a search enters no edge outside the set.
    fn wanted(&self, _state: Self::State) -> Option<ByteSet> {
        None
    }
}

/// Returns whether an automaton accepts a key.
///
/// ```
/// # use zerotrie::{rstd::examples::*, zerotrie_search::*, zerotrie_base::*, zerotrie_core::*};
/// assert!(accepts(&StartsWith(b"in"), b"into"));
/// # Ok::<(), Fail>(())
/// ```
pub fn accepts<T: Automaton>(automaton: &T, key: &[u8]) -> bool {
    let mut left = key;
    let mut state = automaton.start();
    while let Some((byte, rest)) = left.split_first() {
        state = automaton.step(state, *byte);
        left = rest;
    }
    automaton.is_match(state)
}
