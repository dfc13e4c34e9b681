// Made from crates/zerotrie_queries/src/code.rt by rust/make: edit that.
//! A trie as source code: its bytes as a constant, and a function that looks a key up in them.

mod c_reader;
mod items;
pub mod laws;
mod name;
mod write;

pub use name::is_name;
pub use write::write_trie_code;
use crate::zerotrie_core::TrieKind;

/// A language that has the library.
#[derive(Clone, Copy, PartialEq, Eq, Debug)]
pub enum Language {
    /// Rust, by the package of plain Rust.
    Rust,
    /// C, by `zerotrie.h`.
    C,
    /// C, by the reader `zerotrie_read.h`, whose text comes first.
    CAlone,
    /// Rattle, by the library `zerotrie`.
    Rattle,
    /// JavaScript, by the reader `zerotrie_read.mjs`.
    JavaScript,
}

/// Returns the constant of the kind in `zerotrie.h`.
pub fn c_kind(kind: TrieKind) -> &'static str {
    match kind {
        TrieKind::Simple => "ZEROTRIE_SIMPLE_ASCII",
        TrieKind::Ignore => "ZEROTRIE_IGNORE_CASE",
        TrieKind::Hash => "ZEROTRIE_PERFECT_HASH",
        TrieKind::Ext => "ZEROTRIE_EXTENDED_CAPACITY",
    }
}

/// Returns the number of the kind, as text.
pub fn kind_number(kind: TrieKind) -> &'static str {
    match kind {
        TrieKind::Simple => "0",
        TrieKind::Ignore => "8",
        TrieKind::Hash => "3",
        TrieKind::Ext => "7",
    }
}

/// Returns the name of the type, in the library and in plain Rust.
pub fn rattle_type(kind: TrieKind) -> &'static str {
    match kind {
        TrieKind::Simple => "ZeroTrieSimpleAscii",
        TrieKind::Ignore => "ZeroAsciiIgnoreCaseTrie",
        TrieKind::Hash => "ZeroTriePerfectHash",
        TrieKind::Ext => "ZeroTrieExtendedCapacity",
    }
}

impl Language {
    /// Returns the name that code has if no other is asked for.
    pub fn usual_name(self) -> &'static str {
        match self {
            Language::Rust => "TRIE",
            Language::C | Language::CAlone | Language::JavaScript => "trie",
            Language::Rattle => "get",
        }
    }
}
