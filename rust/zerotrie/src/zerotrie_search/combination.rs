// Made from crates/zerotrie_search/src/combination.rt by rust/make: edit that.
//! Automata that are made of others.

use crate::zerotrie_search::automaton::Automaton;
use crate::zerotrie_core::ByteSet;

/// Accepts the keys that both automata accept.
///
/// ```
/// # use zerotrie::{rstd::examples::*, zerotrie_search::*, zerotrie_base::*, zerotrie_core::*};
/// let automaton = Both(StartsWith(b"t"), Subsequence(b"e"));
/// let mut state = automaton.start();
/// for byte in b"trade" {
///     state = automaton.step(state, *byte);
/// }
/// assert!(automaton.is_match(state));
/// # Ok::<(), Fail>(())
/// ```
#[derive(Clone, Copy, Debug)]
pub struct Both<S, T>(pub S, pub T);

impl<S: Automaton, T: Automaton> Automaton for Both<S, T> {
    type State = (S::State, T::State);

    fn start(&self) -> (S::State, T::State) {
        (self.0.start(), self.1.start())
    }

    fn step(&self, state: (S::State, T::State), byte: u8) -> (S::State, T::State) {
        (self.0.step(state.0, byte), self.1.step(state.1, byte))
    }

    fn is_match(&self, state: (S::State, T::State)) -> bool {
        self.0.is_match(state.0) && self.1.is_match(state.1)
    }

    fn can_match(&self, state: (S::State, T::State)) -> bool {
        self.0.can_match(state.0) && self.1.can_match(state.1)
    }

    fn wanted(&self, state: (S::State, T::State)) -> Option<ByteSet> {
        match (self.0.wanted(state.0), self.1.wanted(state.1)) {
            (Some(one), Some(other)) => Some(one.intersect(&other)),
            (Some(one), None) => Some(one),
            (None, other) => other,
        }
    }
}

/// Accepts the keys that one of the automata accepts, or both do.
///
/// ```
/// # use zerotrie::{rstd::examples::*, zerotrie_search::*, zerotrie_base::*, zerotrie_core::*};
/// let automaton = Either(StartsWith(b"a"), StartsWith(b"b"));
/// assert!(automaton.is_match(automaton.step(automaton.start(), b'b')));
/// # Ok::<(), Fail>(())
/// ```
#[derive(Clone, Copy, Debug)]
pub struct Either<S, T>(pub S, pub T);

impl<S: Automaton, T: Automaton> Automaton for Either<S, T> {
    type State = (S::State, T::State);

    fn start(&self) -> (S::State, T::State) {
        (self.0.start(), self.1.start())
    }

    fn step(&self, state: (S::State, T::State), byte: u8) -> (S::State, T::State) {
        (self.0.step(state.0, byte), self.1.step(state.1, byte))
    }

    fn is_match(&self, state: (S::State, T::State)) -> bool {
        self.0.is_match(state.0) || self.1.is_match(state.1)
    }

    fn can_match(&self, state: (S::State, T::State)) -> bool {
        self.0.can_match(state.0) || self.1.can_match(state.1)
    }

    fn wanted(&self, state: (S::State, T::State)) -> Option<ByteSet> {
        let one = self.0.wanted(state.0)?;
        let other = self.1.wanted(state.1)?;
        Some(one.unite(&other))
    }
}

/// Accepts the keys that the automaton does not accept.
///
/// ```
/// # use zerotrie::{rstd::examples::*, zerotrie_search::*, zerotrie_base::*, zerotrie_core::*};
/// let automaton = Not(StartsWith(b"a"));
/// assert!(automaton.is_match(automaton.step(automaton.start(), b'b')));
/// # Ok::<(), Fail>(())
/// ```
///
/// A search passes over no pair unread.
#[derive(Clone, Copy, Debug)]
pub struct Not<S>(pub S);

impl<S: Automaton> Automaton for Not<S> {
    type State = S::State;

    fn start(&self) -> S::State {
        self.0.start()
    }

    fn step(&self, state: S::State, byte: u8) -> S::State {
        self.0.step(state, byte)
    }

    fn is_match(&self, state: S::State) -> bool {
        !self.0.is_match(state)
    }

    fn can_match(&self, _state: S::State) -> bool {
        true
    }
}
