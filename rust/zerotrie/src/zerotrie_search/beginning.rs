// Made from crates/zerotrie_search/src/beginning.rt by rust/make: edit that.
//! Keys that continue another automaton's keys.

use crate::zerotrie_search::automaton::Automaton;
use crate::zerotrie_core::ByteSet;

/// Accepts the keys that begin with a key that the automaton accepts.
///
/// ```
/// # use zerotrie::{rstd::examples::*, zerotrie_search::*, zerotrie_base::*, zerotrie_core::*};
/// let near = Levenshtein::new(b"exmple", 1).ok_or("a long word")?;
/// let automaton = BeginsWith(near);
/// let mut state = automaton.start();
/// for byte in b"examples" {
///     state = automaton.step(state, *byte);
/// }
/// assert!(automaton.is_match(state));
/// # Ok::<(), Fail>(())
/// ```
///
/// A state is that of the automaton, or `None` once it accepted the bytes so far.
#[derive(Clone, Copy, Debug)]
pub struct BeginsWith<S>(pub S);

impl<S: Automaton> Automaton for BeginsWith<S> {
    type State = Option<S::State>;

    fn start(&self) -> Option<S::State> {
        Some(self.0.start())
    }

    fn step(&self, state: Option<S::State>, byte: u8) -> Option<S::State> {
        let inner = state?;
        if self.0.is_match(inner) {
            return None;
        }
        Some(self.0.step(inner, byte))
    }

    fn is_match(&self, state: Option<S::State>) -> bool {
        match state {
            None => true,
            Some(inner) => self.0.is_match(inner),
        }
    }

    fn can_match(&self, state: Option<S::State>) -> bool {
        match state {
            None => true,
            Some(inner) => self.0.can_match(inner),
        }
    }

    fn wanted(&self, state: Option<S::State>) -> Option<ByteSet> {
        let inner = state?;
        if self.0.is_match(inner) {
            return None;
        }
        self.0.wanted(inner)
    }
}
