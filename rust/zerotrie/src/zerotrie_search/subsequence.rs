// Made from crates/zerotrie_search/src/subsequence.rt by rust/make: edit that.
//! Keys that have given bytes in their order, with any bytes between them.

use crate::zerotrie_search::automaton::Automaton;

/// Accepts the keys that have these bytes in this order, whatever comes before, between and after
/// them.
///
/// ```
/// # use zerotrie::{rstd::examples::*, zerotrie_search::*, zerotrie_base::*, zerotrie_core::*};
/// let automaton = Subsequence(b"ae");
/// let mut state = automaton.start();
/// for byte in b"trade" {
///     state = automaton.step(state, *byte);
/// }
/// assert!(automaton.is_match(state));
/// # Ok::<(), Fail>(())
/// ```
///
/// A state is what is left of the bytes. Any key may continue with them, so a search skips no
/// pair unread.
#[derive(Clone, Copy, Debug)]
pub struct Subsequence<'p>(pub &'p [u8]);

impl<'p> Automaton for Subsequence<'p> {
    type State = &'p [u8];

    fn start(&self) -> &'p [u8] {
        self.0
    }

    fn step(&self, state: &'p [u8], byte: u8) -> &'p [u8] {
        match state.split_first() {
            None => state,
            Some((first, more)) => { if *first == byte { more } else { state } }
        }
    }

    fn is_match(&self, state: &'p [u8]) -> bool {
        state.is_empty()
    }

    fn can_match(&self, _state: &'p [u8]) -> bool {
        true
    }
}
