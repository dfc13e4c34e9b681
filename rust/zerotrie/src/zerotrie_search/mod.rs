// Made from crates/zerotrie_search/src/lib.rt by rust/make: edit that.
//! Searches: the pairs of a trie whose keys an automaton accepts.
#![cfg_attr(rustfmt, rustfmt::skip)]
#![forbid(unsafe_code)]
#![deny(unused_must_use)]
#![cfg_attr(not(feature = "__internal"), allow(dead_code, unused_imports))]
#![allow(missing_docs, unused_variables)]
#![allow(clippy::assign_op_pattern, clippy::collapsible_match, clippy::explicit_auto_deref, clippy::extra_unused_type_parameters, clippy::len_without_is_empty, clippy::manual_find, clippy::manual_map, clippy::manual_range_contains, clippy::needless_borrow, clippy::needless_lifetimes, clippy::needless_range_loop, clippy::non_canonical_clone_impl, clippy::nonminimal_bool, clippy::precedence, clippy::question_mark, clippy::type_complexity, clippy::while_let_on_iterator)]

mod any;
mod automaton;
mod beginning;
mod combination;
mod folding;
mod fuzzy;
mod glob;
mod keys_of;
pub mod laws;
mod levenshtein;
mod listing;
mod nearest;
mod pending;
mod prefix;
mod range;
mod search;
mod sorted;
mod subsequence;
mod trail;
mod tries;

pub use any::{AnyAutomaton, SearchBy, WordError};
pub use automaton::{Automaton, accepts};
pub use beginning::BeginsWith;
pub use combination::{Both, Either, Not};
pub use folding::{ByKind, fold_by, fold_word};
pub use fuzzy::Fuzzy;
pub use glob::{Glob, GlobChars, GlobError, GlobState};
pub use keys_of::KeysOf;
pub use levenshtein::{
    CharsState, Levenshtein, LevenshteinChars, LevenshteinState, Osa, OsaChars, OsaCharsState,
    OsaState,
};
pub use listing::TrieListing;
pub use nearest::ZeroTrieNearest;
pub use prefix::{KindPrefix, StartsWith};
pub use range::KeyRange;
pub use search::ZeroTrieSearch;
pub use sorted::{ZeroTrieSorted, ZeroTrieSortedIterator};
pub use subsequence::Subsequence;
pub use tries::Search;

/// The most letters that a word of a fuzzy search has, and the most items of a pattern.
pub const WORD_LIMIT: usize = 63;
pub use crate::by_automaton;
