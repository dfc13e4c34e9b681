// Made from crates/zerotrie_queries/src/kept.rt by rust/make: edit that.
//! The conditions of a choice but that of its word, as an automaton.

use crate::zerotrie_queries::question::{Choice, Pattern};
use crate::zerotrie_core::TrieKind;
use crate::zerotrie_search::{
    AnyAutomaton, Automaton, Both, ByKind, Either, Glob, GlobChars, KeyRange, KindPrefix, Not,
    SearchBy,
};

/// Accepts what the automaton does, and without one no key.
#[derive(Clone, Copy, Debug)]
pub(in crate::zerotrie_queries) struct Maybe<S>(pub(in crate::zerotrie_queries) Option<S>);

impl<S: Automaton> Automaton for Maybe<S> {
    type State = Option<S::State>;

    fn start(&self) -> Option<S::State> {
        match &self.0 {
            Some(automaton) => Some(automaton.start()),
            None => None,
        }
    }

    fn step(&self, state: Option<S::State>, byte: u8) -> Option<S::State> {
        let state = state?;
        match &self.0 {
            Some(automaton) => Some(automaton.step(state, byte)),
            None => None,
        }
    }

    fn is_match(&self, state: Option<S::State>) -> bool {
        let Some(state) = state else {
            return false;
        };
        match &self.0 {
            Some(automaton) => automaton.is_match(state),
            None => false,
        }
    }

    fn can_match(&self, state: Option<S::State>) -> bool {
        let Some(state) = state else {
            return false;
        };
        match &self.0 {
            Some(automaton) => automaton.can_match(state),
            None => false,
        }
    }
}

/// Accepts the keys that no pattern matches.
pub(in crate::zerotrie_queries) type NoPattern<'p> = Not<ByKind<Either<Maybe<Glob<'p>>, Maybe<GlobChars<'p>>>>>;

/// Accepts the keys with a prefix in a range.
pub(in crate::zerotrie_queries) type Part<'p> = Both<KindPrefix<'p>, ByKind<KeyRange<'p>>>;

/// Accepts the keys of which the conditions of a choice hold but that of its word.
pub(in crate::zerotrie_queries) type Conditions<'p> = Both<Part<'p>, NoPattern<'p>>;

/// Returns the automaton of a pattern of bytes, as a kind compares keys. `None` if it is none of its sort.
fn glob_of(kind: TrieKind, text: &[u8]) -> Option<Glob<'_>> {
    let Ok(_fits) = AnyAutomaton::by_kind(kind, SearchBy::Glob, text) else {
        return None;
    };
    let glob = match kind {
        TrieKind::Ignore => Glob::in_any_case(text),
        TrieKind::Simple | TrieKind::Hash | TrieKind::Ext => Glob::new(text),
    };
    match glob {
        Ok(glob) => Some(glob),
        Err(_) => None,
    }
}

/// Returns the automaton of a pattern of characters, as a kind compares keys. `None` if it is none of its
/// sort.
fn glob_chars_of(kind: TrieKind, text: &[u8]) -> Option<GlobChars<'_>> {
    let Ok(_fits) = AnyAutomaton::by_kind(kind, SearchBy::GlobChars, text) else {
        return None;
    };
    let Ok(text) = crate::rstd::str::from_utf8(text) else {
        return None;
    };
    let glob = match kind {
        TrieKind::Ignore => GlobChars::in_any_case(text),
        TrieKind::Simple | TrieKind::Hash | TrieKind::Ext => GlobChars::new(text),
    };
    match glob {
        Ok(glob) => Some(glob),
        Err(_) => None,
    }
}

/// Returns the automaton of the keys that no pattern matches, as a kind compares keys.
fn no_pattern(kind: TrieKind, without: Option<Pattern<'_>>) -> NoPattern<'_> {
    let Some(pattern) = without else {
        return Not(ByKind(kind, Either(Maybe(None), Maybe(None))));
    };
    if pattern.by_chars {
        let chars = glob_chars_of(kind, pattern.text);
        Not(ByKind(kind, Either(Maybe(None), Maybe(chars))))
    } else {
        let bytes = glob_of(kind, pattern.text);
        Not(ByKind(kind, Either(Maybe(bytes), Maybe(None))))
    }
}

/// Returns the automaton of the keys with the prefix of a choice, in its range. Its bounds are as the
/// kind compares keys.
fn part_of(kind: TrieKind, choice: Choice<'_>) -> Part<'_> {
    let prefix = KindPrefix {
        kind,
        prefix: choice.prefix,
    };
    Both(prefix, ByKind(kind, choice.range))
}

/// Returns the automaton of the keys of which the conditions of a choice hold but that of its word. Its
/// bounds are as the kind compares keys.
pub(in crate::zerotrie_queries) fn conditions(kind: TrieKind, choice: Choice<'_>) -> Conditions<'_> {
    Both(part_of(kind, choice), no_pattern(kind, choice.without))
}
