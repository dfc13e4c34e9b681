// Made from crates/zerotrie_queries/src/question.rt by rust/make: edit that.
//! What a file is asked: which keys are looked up in what, and which pairs are listed.

use crate::zerotrie_core::{TrieKind, TrieRef};
use crate::zerotrie_reverse::KeysByValue;
use crate::zerotrie_search::{AnyAutomaton, KeyRange, SearchBy};

/// What keys and values are looked up in: a trie, the bytes of an index, or a table of a trie.
#[derive(Clone, Copy, Debug)]
pub enum Finder<'a> {
    /// A trie.
    Trie(TrieRef<'a>),
    /// The bytes of an index.
    Index(&'a [u8]),
    /// A table of the keys of a trie by their values.
    Table(&'a KeysByValue<'a>),
}

/// What is looked up for each text.
#[derive(Clone, Copy, PartialEq, Eq, Debug)]
pub enum Asked {
    /// The text is a key: its value.
    Value,
    /// The text is a key: the key and its value.
    Pair,
    /// The longest key that the text begins with, and its value.
    Longest,
    /// The longest key that the text begins with and that ends at a border of the text, and its
    /// value. A border is the end of the text, or a place with this byte next. The empty key always
    /// counts.
    LongestAt(u8),
    /// All keys that the text begins with, the shortest first, each with its value, or those that end at a
    /// border if a byte is given.
    Prefixes(Option<u8>),
    /// The text is a value, in decimal: the first key in the order of the trie that has it.
    KeyOf,
}

impl Asked {
    /// Returns whether texts are asked for as keys.
    pub fn asks_keys(self) -> bool {
        matches!(self, Asked::Value | Asked::Pair)
    }
}

/// How the keys and texts that are asked for are written.
#[derive(Clone, Copy, PartialEq, Eq, Debug)]
pub enum Spelling {
    /// As they are.
    Plain,
    /// With the escapes that keys have in lines of pairs. If one is malformed, nothing is found.
    Escaped,
}

/// What is looked up for each text, and how the texts are written.
#[derive(Clone, Copy, PartialEq, Eq, Debug)]
pub struct Query {
    /// What is looked up for each text.
    pub asked: Asked,
    /// How the texts are written.
    pub spelling: Spelling,
}

/// A word by which keys are sought. If it is none of its sort, as a malformed pattern, it finds no key.
#[derive(Clone, Copy, Debug)]
pub struct Sought<'a> {
    /// How the word says which keys it finds.
    pub by: SearchBy,
    /// The word.
    pub word: &'a [u8],
    /// Whether it also finds each key that begins with one that it finds.
    pub begins: bool,
}

impl<'a> Sought<'a> {
    /// Returns the automaton of the keys that the word finds by itself, as a kind compares them, or `None` if
    /// the word is none of its sort. The word is as the kind compares keys.
    pub(in crate::zerotrie_queries) fn automaton(self, kind: TrieKind) -> Option<AnyAutomaton<'a>> {
        match AnyAutomaton::by_kind(kind, self.by, self.word) {
            Ok(automaton) => Some(automaton),
            Err(_) => None,
        }
    }

    /// Returns how many edits are allowed, and 0 if keys are not sought by edits.
    fn edits(self) -> u32 {
        match self.by {
            SearchBy::Fuzzy(edits)
            | SearchBy::FuzzyChars(edits)
            | SearchBy::Swaps(edits)
            | SearchBy::SwapsChars(edits) => edits,
            SearchBy::Prefix | SearchBy::Glob | SearchBy::GlobChars | SearchBy::Subsequence => 0,
        }
    }

    /// Returns the same word with other edits.
    fn with_edits(self, edits: u32) -> Self {
        let by = match self.by {
            SearchBy::Fuzzy(_) => SearchBy::Fuzzy(edits),
            SearchBy::FuzzyChars(_) => SearchBy::FuzzyChars(edits),
            SearchBy::Swaps(_) => SearchBy::Swaps(edits),
            SearchBy::SwapsChars(_) => SearchBy::SwapsChars(edits),
            SearchBy::Prefix | SearchBy::Glob | SearchBy::GlobChars | SearchBy::Subsequence =>
                self.by,
        };
        Sought {
            by,
            word: self.word,
            begins: self.begins,
        }
    }
}

/// A pattern of a listing.
#[derive(Clone, Copy, Debug)]
pub struct Pattern<'a> {
    /// Whether it matches characters, and otherwise bytes.
    pub by_chars: bool,
    /// The pattern.
    pub text: &'a [u8],
}

/// Which keys a listing has: those that hold all of this. In a trie that ignores case, keys, bounds and
/// the word are compared in lower case, and the letters of a pattern are taken in both cases.
#[derive(Clone, Copy, Debug)]
pub struct Choice<'a> {
    /// They begin with these bytes.
    pub prefix: &'a [u8],
    /// They are between these bounds, by their bytes.
    pub range: KeyRange<'a>,
    /// This pattern does not match them, if there is one. A malformed one matches no key.
    pub without: Option<Pattern<'a>>,
    /// This word finds them, if there is one.
    pub sought: Option<Sought<'a>>,
}

impl<'a> Choice<'a> {
    /// Returns how many edits of its word are allowed, and 0 if keys are not sought by edits.
    pub(in crate::zerotrie_queries) fn edits(self) -> u32 {
        match self.sought {
            Some(sought) => sought.edits(),
            None => 0,
        }
    }

    /// Returns whether keys need only begin with one that its word finds.
    pub(in crate::zerotrie_queries) fn begins(self) -> bool {
        match self.sought {
            Some(sought) => sought.begins,
            None => false,
        }
    }

    /// Returns the same choice with other edits of its word.
    pub(in crate::zerotrie_queries) fn with_edits(self, edits: u32) -> Self {
        Choice {
            prefix: self.prefix,
            range: self.range,
            without: self.without,
            sought: match self.sought {
                Some(sought) => Some(sought.with_edits(edits)),
                None => None,
            },
        }
    }
}

/// The order of a listing.
#[derive(Clone, Copy, PartialEq, Eq, Debug)]
pub enum Order {
    /// That of the trie, if keys need only begin with a prefix, and else that of bytes.
    Stored,
    /// That of the bytes of the keys.
    ByBytes,
    /// That of bytes, and only the pairs that the fewest edits of the word find, of those that its edits
    /// do. If keys are not sought by edits, all pairs.
    Closest,
    /// The pairs that fewer edits of the word find first, and those that as many find in the order of bytes. A
    /// key that need only begin with one that the word finds is as near as the nearest of its beginnings. If keys
    /// are not sought by edits, that of bytes.
    Nearest,
}

/// Which pairs are listed, and in which order.
#[derive(Clone, Copy, Debug)]
pub struct ListQuery<'a> {
    /// Their keys.
    pub choice: Choice<'a>,
    /// Their order.
    pub order: Order,
    /// If it is not `None`, only those that have the greatest values, at most this many, the greatest first, and
    /// those of one value in their order.
    pub top: Option<usize>,
    /// At most how many of them, the first ones. If `None`, all.
    pub limit: Option<usize>,
}
