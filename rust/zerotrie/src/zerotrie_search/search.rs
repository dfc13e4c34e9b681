// Made from crates/zerotrie_search/src/search.rt by rust/make: edit that.
//! The pairs of a listing whose keys an automaton accepts.

use crate::rstd::prelude::*;
use crate::zerotrie_search::automaton::Automaton;
use crate::zerotrie_search::sorted::{Reached, ZeroTrieSorted};
use crate::zerotrie_search::trail::{Verdict, last_state, read};
use crate::rstd::alloc::{AllocError, Allocator, Global};

/// Lists the pairs of a sorted listing whose keys an automaton accepts, in the order of bytes, each key
/// borrowed from one buffer.
///
/// ```
/// # use zerotrie::{rstd::examples::*, zerotrie_search::*, zerotrie_base::*, zerotrie_core::*};
/// use zerotrie::rstd::ops::Bound;
///
/// // the keys "ab", "ac" and "b" with values 1, 2 and 3
/// let bytes = b"\xC2ab\x06\xC2bc\x01\x81\x82\x83";
/// let (from, to) = (Bound::Unbounded, Bound::Excluded(b"b".as_slice()));
/// let sorted = ZeroTrieSorted::new::<Simple>(Global, bytes, from, to)?;
/// let near = Levenshtein::new(b"c", 1).ok_or("a long word")?;
/// let mut search = ZeroTrieSearch::new(Global, sorted, near);
/// assert!(search.advance()?);
/// assert_eq!((search.key(), search.value()), (b"ac".as_slice(), 2));
/// assert_eq!(search.automaton().distance(search.state()), Some(1));
/// assert!(!search.advance()?);
/// # Ok::<(), Fail>(())
/// ```
///
/// It goes from node to node. Once no accepted key begins with the bytes so far, it leaves out the pairs
/// that begin with them and reads no node of them. Of a branch it enters no target whose edge the
/// automaton does not want. It allocates for the longest key alone: the listing, and one state a byte,
/// which keys that begin alike share. If an allocation for a state fails, it reads the next key from an
/// earlier byte.
#[derive(Clone)]
pub struct ZeroTrieSearch<'a, 'p, T: Automaton, A: Allocator = Global> {
    pairs: ZeroTrieSorted<'a, 'p, A>,
    automaton: T,
    trail: Vec<(u8, T::State), A>,
    state: T::State,
}

impl<'a, 'p, T: Automaton, A: Allocator> ZeroTrieSearch<'a, 'p, T, A> {
    /// Moves to the next pair whose key is accepted, and returns whether there is one. An error
    /// ends the search.
    ///
    /// The only error is a failed allocation for a longer key. On malformed bytes the result is
    /// unspecified; it never panics or reads outside them, and lists at most as many pairs as bytes.
    pub fn advance(&mut self) -> Result<bool, AllocError> {
        next_accepted(
            &self.automaton,
            &mut self.pairs,
            &mut self.trail,
            &mut self.state,
        )
    }

    /// Returns the key of the current pair, the one that the last call of `advance` moved to.
    /// Before the first call and after the end, it is not a key of the trie.
    #[inline]
    pub fn key(&self) -> &[u8] {
        self.pairs.key()
    }

    /// Returns the value of the current pair.
    #[inline]
    pub fn value(&self) -> usize {
        self.pairs.value()
    }

    /// Returns the automaton.
    #[inline]
    pub fn automaton(&self) -> &T {
        &self.automaton
    }

    /// Returns the state of the automaton after the key of the current pair.
    #[inline]
    pub fn state(&self) -> T::State {
        self.state
    }
}

impl<'a, 'p, T: Automaton, A: Allocator + Copy> ZeroTrieSearch<'a, 'p, T, A> {
    /// Lists the pairs of a sorted listing whose keys are accepted. It does not allocate before the
    /// first call of `advance`.
    pub fn new(alloc: A, pairs: ZeroTrieSorted<'a, 'p, A>, automaton: T) -> Self {
        let state = automaton.start();
        ZeroTrieSearch {
            pairs,
            automaton,
            trail: Vec::new(alloc),
            state,
        }
    }
}

/// Leaves out the targets of the branch that was opened last whose edges the automaton does not want, as
/// far as memory was there for the states.
#[inline]
fn only_wanted<'a, 'p, T: Automaton, A: Allocator>(
    automaton: &T,
    pairs: &mut ZeroTrieSorted<'a, 'p, A>,
    trail: &[(u8, T::State)],
) {
    if trail.len() < pairs.key().len() {
        return;
    }
    if let Some(wanted) = automaton.wanted(last_state(automaton, trail)) {
        pairs.only(&wanted);
    }
}

/// Moves a sorted listing to the next pair whose key is accepted.
fn next_accepted<'a, 'p, T: Automaton, A: Allocator>(
    automaton: &T,
    pairs: &mut ZeroTrieSorted<'a, 'p, A>,
    trail: &mut Vec<(u8, T::State), A>,
    state: &mut T::State,
) -> Result<bool, AllocError> {
    loop {
        match pairs.advance_node()? {
            Reached::End => return Ok(false),
            Reached::Branch => only_wanted(automaton, pairs, trail.as_slice()),
            Reached::Bytes(kept) => match read(automaton, pairs.key(), kept, trail) {
                Verdict::Alive(_after) => {}
                Verdict::Dead(depth) => pairs.leave(depth),
            },
            Reached::Pair => {
                let key = pairs.key();
                match read(automaton, key, key.len(), trail) {
                    Verdict::Dead(depth) => pairs.leave(depth),
                    Verdict::Alive(after) => {
                        if automaton.is_match(after) {
                            *state = after;
                            return Ok(true);
                        }
                    }
                }
            }
        }
    }
}
