//! Searches: automata, which decide byte by byte which keys a search lists, in ascending order of bytes.
//!
//! ```
//! use zerotrie::ZeroTrieSimpleAscii;
//! use zerotrie::search::{BeginsWith, Both, Levenshtein, Not, StartsWith};
//!
//! let trie = ZeroTrieSimpleAscii::try_from_iter([("trail", 1), ("tree", 2), ("trie", 3), ("tries", 4)])?;
//! let one_edit = Levenshtein::new(b"trie", 1).unwrap();
//! assert_eq!(trie.search(one_edit).values().collect::<Vec<_>>(), [2, 3, 4]);
//!
//! // Completions that forgive a mistake, but for those that begin with "tri".
//! let completions = BeginsWith(Levenshtein::new(b"trai", 1).unwrap());
//! let some = Both(completions, Not(StartsWith(b"tri")));
//! assert_eq!(trie.search(some).values().collect::<Vec<_>>(), [1]);
//! # Ok::<(), zerotrie::ZeroTrieBuildError>(())
//! ```
//!
//! [`Osa`] counts two neighbours that change places as one edit. It says how many edits a key is
//! away, and so do [`Levenshtein`] and [`LevenshteinChars`]:
//!
//! ```
//! use zerotrie::ZeroTrieSimpleAscii;
//! use zerotrie::search::Osa;
//!
//! let trie = ZeroTrieSimpleAscii::try_from_iter([("tree", 2), ("trie", 3), ("true", 4)])?;
//! let typed = Osa::new(b"tire", 2).unwrap();
//! let mut near = trie.search(typed);
//! let mut found = Vec::new();
//! while near.advance() {
//!     found.push((typed.distance(near.state()), near.value()));
//! }
//! assert_eq!(found, [(Some(2), 2), (Some(1), 3), (Some(2), 4)]);
//! # Ok::<(), zerotrie::ZeroTrieBuildError>(())
//! ```
//!
//! An automaton of your own is a type with the trait [`Automaton`]. A search tries no byte that is
//! outside the set which its `wanted` returns:
//!
//! ```
//! use zerotrie::ZeroTrieSimpleAscii;
//! use zerotrie::search::{Automaton, ByteSet};
//!
//! /// Accepts keys of digits.
//! struct Digits;
//!
//! impl Automaton for Digits {
//!     type State = bool;
//!
//!     fn start(&self) -> bool {
//!         true
//!     }
//!
//!     fn step(&self, state: bool, byte: u8) -> bool {
//!         state && byte.is_ascii_digit()
//!     }
//!
//!     fn is_match(&self, state: bool) -> bool {
//!         state
//!     }
//!
//!     fn can_match(&self, state: bool) -> bool {
//!         state
//!     }
//!
//!     fn wanted(&self, _state: bool) -> Option<ByteSet> {
//!         Some(ByteSet::from_bytes(b"0123456789"))
//!     }
//! }
//!
//! let trie = ZeroTrieSimpleAscii::try_from_iter([("007", 1), ("42", 2), ("4x4", 3), ("x", 4)])?;
//! assert_eq!(trie.search(Digits).values().collect::<Vec<_>>(), [1, 2]);
//! # Ok::<(), zerotrie::ZeroTrieBuildError>(())
//! ```
//!
//! [`AnyAutomaton`] is for a program that learns when it runs which search is wanted:
//!
//! ```
//! use zerotrie::ZeroTrieSimpleAscii;
//! use zerotrie::search::{AnyAutomaton, SearchBy, by_automaton};
//!
//! let trie = ZeroTrieSimpleAscii::try_from_iter([("tree", 1), ("trie", 2)])?;
//! let asked = AnyAutomaton::new(SearchBy::Glob, b"tr?e").unwrap();
//! assert_eq!(by_automaton!(asked, automaton => trie.search(automaton).count()), 2);
//! # Ok::<(), zerotrie::ZeroTrieBuildError>(())
//! ```

pub use crate::by_automaton;
pub use crate::zerotrie_core::ByteSet;
pub use crate::zerotrie_search::{
    AnyAutomaton, Automaton, BeginsWith, Both, ByKind, CharsState, Either, Fuzzy, Glob, GlobChars, GlobError, GlobState,
    KeyRange, KindPrefix, Levenshtein, LevenshteinChars, LevenshteinState, Not, Osa, OsaChars, OsaCharsState, OsaState, SearchBy,
    StartsWith, Subsequence, WORD_LIMIT, WordError, accepts, fold_by, fold_word,
};

use crate::Trie;
use crate::by_kind;
use crate::zerotrie_core::CursorPlace;
use crate::zerotrie_search;
use core::fmt;
use core::ops::{Bound, Range, RangeFrom, RangeFull, RangeInclusive, RangeTo, RangeToInclusive};

/// Accepts the keys of another trie, of any type.
///
/// ```
/// use zerotrie::{ZeroTriePerfectHash, ZeroTrieSimpleAscii};
/// use zerotrie::search::{KeysOf, Not};
///
/// let trie = ZeroTrieSimpleAscii::try_from_iter([("in", 1), ("on", 2)])?;
/// let other = ZeroTriePerfectHash::try_from_iter([("on", 5)])?;
/// assert_eq!(trie.search(KeysOf::new(&other)).values().collect::<Vec<_>>(), [2]);
/// assert_eq!(trie.search(Not(KeysOf::new(&other))).values().collect::<Vec<_>>(), [1]);
/// # Ok::<(), zerotrie::ZeroTrieBuildError>(())
/// ```
pub struct KeysOf<'a>(zerotrie_search::KeysOf<'a>);

impl<'a> KeysOf<'a> {
    /// Makes an automaton of a trie.
    ///
    /// ```
    /// use zerotrie::ZeroTrieSimpleAscii;
    /// use zerotrie::search::KeysOf;
    ///
    /// let trie = ZeroTrieSimpleAscii::try_from_iter([("in", 1)])?;
    /// assert_eq!(trie.search(KeysOf::new(&trie)).count(), 1);
    /// # Ok::<(), zerotrie::ZeroTrieBuildError>(())
    /// ```
    pub fn new<T: Trie + ?Sized>(trie: &'a T) -> Self {
        KeysOf(by_kind!(trie.kind(), zerotrie_search::KeysOf::new::<_>(trie.as_bytes())))
    }

    /// Returns the value that the other trie has for the key before a state.
    ///
    /// ```
    /// use zerotrie::ZeroTrieSimpleAscii;
    /// use zerotrie::search::KeysOf;
    ///
    /// let trie = ZeroTrieSimpleAscii::try_from_iter([("in", 1)])?;
    /// let other = ZeroTrieSimpleAscii::try_from_iter([("in", 5)])?;
    /// let mut matches = trie.search(KeysOf::new(&other));
    /// matches.advance();
    /// assert_eq!(matches.automaton().value(matches.state()), Some(5));
    /// # Ok::<(), zerotrie::ZeroTrieBuildError>(())
    /// ```
    pub fn value(&self, state: CursorPlace) -> Option<usize> {
        self.0.value(state)
    }
}

impl Automaton for KeysOf<'_> {
    type State = CursorPlace;

    fn start(&self) -> CursorPlace {
        self.0.start()
    }

    fn step(&self, state: CursorPlace, byte: u8) -> CursorPlace {
        self.0.step(state, byte)
    }

    fn is_match(&self, state: CursorPlace) -> bool {
        self.0.is_match(state)
    }

    fn can_match(&self, state: CursorPlace) -> bool {
        self.0.can_match(state)
    }
}

/// Converts a range to bounds.
macro_rules! bounds {
    ($range:ident, $bounds:ident => $from:expr, $to:expr) => {
        impl<'p, K: AsRef<[u8]> + ?Sized> From<$range<&'p K>> for KeyRange<'p> {
            fn from($bounds: $range<&'p K>) -> Self {
                KeyRange { from: $from, to: $to }
            }
        }
    };
}

bounds!(Range, it => Bound::Included(it.start.as_ref()), Bound::Excluded(it.end.as_ref()));
bounds!(RangeFrom, it => Bound::Included(it.start.as_ref()), Bound::Unbounded);
bounds!(RangeTo, it => Bound::Unbounded, Bound::Excluded(it.end.as_ref()));
bounds!(RangeToInclusive, it => Bound::Unbounded, Bound::Included(it.end.as_ref()));
bounds!(RangeInclusive, it => Bound::Included((*it.start()).as_ref()), Bound::Included((*it.end()).as_ref()));

impl From<RangeFull> for KeyRange<'_> {
    fn from(_all: RangeFull) -> Self {
        KeyRange { from: Bound::Unbounded, to: Bound::Unbounded }
    }
}

impl<'p> From<(Bound<&'p [u8]>, Bound<&'p [u8]>)> for KeyRange<'p> {
    fn from((from, to): (Bound<&'p [u8]>, Bound<&'p [u8]>)) -> Self {
        KeyRange { from, to }
    }
}

impl fmt::Debug for KeysOf<'_> {
    fn fmt(&self, f: &mut fmt::Formatter<'_>) -> fmt::Result {
        f.debug_struct("KeysOf").finish_non_exhaustive()
    }
}
