// Made from crates/zerotrie_search/src/folding.rt by rust/make: edit that.
//! Automata over keys as a kind compares them.

use crate::zerotrie_search::any::SearchBy;
use crate::zerotrie_search::automaton::Automaton;
use crate::zerotrie_search::fuzzy::Fuzzy;
use crate::zerotrie_core::{ByteSet, TrieKind, by_kind, folded};

/// Returns a byte as the kind compares it: an ASCII letter in lower case if the kind ignores case.
#[inline(always)]
fn folded_by(kind: TrieKind, byte: u8) -> u8 {
    by_kind!(kind, folded::<_>(byte))
}

/// Makes each byte the one as which the kind compares it: an ASCII letter is in lower case if the kind
/// ignores case.
///
/// ```
/// # use zerotrie::{rstd::examples::*, zerotrie_search::*, zerotrie_base::*, zerotrie_core::*};
/// let mut word = *b"Trie";
/// fold_by(TrieKind::Ignore, &mut word);
/// assert_eq!(word, *b"trie");
/// # Ok::<(), Fail>(())
/// ```
pub fn fold_by(kind: TrieKind, bytes: &mut [u8]) {
    match kind {
        TrieKind::Ignore => bytes.make_ascii_lowercase(),
        TrieKind::Simple | TrieKind::Hash | TrieKind::Ext => {}
    }
}

/// Makes a word the one as which a kind compares it, as `fold_by` does, but leaves a pattern as it is: its
/// letters may be the ends of a range.
pub fn fold_word(kind: TrieKind, by: SearchBy, word: &mut [u8]) {
    match by {
        SearchBy::Glob | SearchBy::GlobChars => {}
        SearchBy::Prefix
        | SearchBy::Subsequence
        | SearchBy::Fuzzy(_)
        | SearchBy::FuzzyChars(_)
        | SearchBy::Swaps(_)
        | SearchBy::SwapsChars(_) => fold_by(kind, word),
    }
}

/// Returns whether a kind ignores case.
pub(in crate::made::zerotrie_search) fn ignores_case(kind: TrieKind) -> bool {
    match kind {
        TrieKind::Ignore => true,
        TrieKind::Simple | TrieKind::Hash | TrieKind::Ext => false,
    }
}

/// Accepts the keys that the automaton accepts once each byte is as a kind compares it: with ASCII
/// letters in lower case in the kind that ignores case, and the key itself in another.
///
/// ```
/// # use zerotrie::{rstd::examples::*, zerotrie_search::*, zerotrie_base::*, zerotrie_core::*};
/// let mut word = *b"Tr";
/// fold_by(TrieKind::Ignore, &mut word);
/// let automaton = ByKind(TrieKind::Ignore, StartsWith(&word));
/// let mut state = automaton.start();
/// for byte in b"TRIE" {
///     state = automaton.step(state, *byte);
/// }
/// assert!(automaton.is_match(state));
/// # Ok::<(), Fail>(())
/// ```
///
/// So give the automaton bounds or a word that `fold_by` made, and of a pattern use `Glob::in_any_case`.
/// `fold_word` and `AnyAutomaton::by_kind` choose.
#[derive(Clone, Copy, Debug)]
pub struct ByKind<S>(pub TrieKind, pub S);

/// Returns a set with the letters in upper case whose lower case is in it.
fn with_upper_case(set: &ByteSet) -> ByteSet {
    let mut both = *set;
    for letter in 65..91_usize {
        if set.has(letter as u8 + 32) {
            both.insert(letter as u8);
        }
    }
    both
}

impl<S: Automaton> Automaton for ByKind<S> {
    type State = S::State;

    fn start(&self) -> S::State {
        self.1.start()
    }

    fn step(&self, state: S::State, byte: u8) -> S::State {
        self.1.step(state, folded_by(self.0, byte))
    }

    fn is_match(&self, state: S::State) -> bool {
        self.1.is_match(state)
    }

    fn can_match(&self, state: S::State) -> bool {
        self.1.can_match(state)
    }

    fn wanted(&self, state: S::State) -> Option<ByteSet> {
        let wanted = self.1.wanted(state)?;
        match self.0 {
            TrieKind::Ignore => Some(with_upper_case(&wanted)),
            TrieKind::Simple | TrieKind::Hash | TrieKind::Ext => Some(wanted),
        }
    }
}

impl<S: Fuzzy> Fuzzy for ByKind<S> {
    fn edits(&self) -> u8 {
        self.1.edits()
    }

    fn with_edits(&self, edits: u8) -> Self {
        ByKind(self.0, self.1.with_edits(edits))
    }

    fn distance(&self, state: S::State) -> Option<usize> {
        self.1.distance(state)
    }
}
