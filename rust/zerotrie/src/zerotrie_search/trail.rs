// Made from crates/zerotrie_search/src/trail.rt by rust/make: edit that.
//! The states of an automaton along a key, kept for the keys that begin alike.

use crate::rstd::prelude::*;
use crate::zerotrie_search::automaton::Automaton;
use crate::rstd::alloc::Allocator;

/// What an automaton says of the first bytes of keys.
#[derive(Clone, Copy, Debug)]
pub(in crate::made::zerotrie_search) enum Verdict<S> {
    /// It is in this state after them.
    Alive(S),
    /// It accepts no key that begins with this many of them.
    Dead(usize),
}

/// Returns the state after all bytes of a trail.
#[inline]
pub(in crate::made::zerotrie_search) fn last_state<T: Automaton>(automaton: &T, trail: &[(u8, T::State)]) -> T::State {
    match trail.split_last() {
        None => automaton.start(),
        Some((last, _front)) => last.1,
    }
}

/// Puts a byte and the state after it on the trail, if this many bytes are on it and memory is
/// there for one more.
fn keep<S: Copy, A: Allocator>(trail: &mut Vec<(u8, S), A>, count: usize, byte: u8, state: S) {
    if trail.len() == count {
        let _kept = trail.push((byte, state));
    }
}

/// Returns what an automaton says of the first bytes of keys. The first `kept` bytes of the trail
/// are bytes of the key. The trail gets the states after the other bytes, as many as there is
/// memory for.
pub(in crate::made::zerotrie_search) fn read<T: Automaton, A: Allocator>(
    automaton: &T,
    key: &[u8],
    kept: usize,
    trail: &mut Vec<(u8, T::State), A>,
) -> Verdict<T::State> {
    trail.truncate(kept);
    let mut place = trail.len();
    let mut state = last_state(automaton, trail.as_slice());
    while place < key.len() {
        let byte = key[place];
        state = automaton.step(state, byte);
        if !automaton.can_match(state) {
            return Verdict::Dead(place + 1);
        }
        keep(trail, place, byte, state);
        place += 1;
    }
    Verdict::Alive(state)
}
